//! The calls over slices.
use crate::error::Error;
use crate::ffi::{self, Answer};
use crate::param::{Derived, PineParam};

/// What a circuit gives.
///
/// That the call was accepted means that the arguments were in order, and nothing about the report. **A report is valid
/// where the values of both circuits are 0** on its whole full vector, with num_shares 1 and joint randomness that the
/// client could not choose.
///
/// The values on two shares do not add up to the value on the whole: both circuits multiply elements. So the value on a
/// share says nothing by itself; two servers that hold only shares need an FLP proof, which is not here.
///
/// A value that nobody looks at is a warning:
///
/// ```
/// # #![deny(unused_must_use)]
/// # use jihmeto_pine::{Error, Full, Pine};
/// fn check(pine: &Pine, full: &Full<&[u64]>) -> Result<bool, Error> {
///     Ok(pine.valid_sq_norm_equal(full)?.is_valid())
/// }
/// ```
///
/// ```compile_fail
/// # #![deny(unused_must_use)]
/// # use jihmeto_pine::{Error, Full, Pine};
/// fn check(pine: &Pine, full: &Full<&[u64]>) -> Result<(), Error> {
///     pine.valid_sq_norm_equal(full)?;
///     Ok(())
/// }
/// ```
#[derive(Clone, Copy, Debug, PartialEq, Eq)]
#[must_use = "an accepted call means that the arguments were in order; the report is valid where the value is 0"]
pub struct Circuit<E = u64> {
    /// A field number: 0 for a report that is in order.
    pub value: E,
    /// One for each chunk taken.
    pub gadget_calls: u64,
}

impl<E: Default + PartialEq> Circuit<E> {
    /// Whether the value is 0: of a whole full vector, with num_shares 1, whether this circuit finds it in order. Both
    /// circuits must.
    #[must_use]
    pub fn is_valid(self) -> bool {
        self.value == E::default()
    }
}

pub(crate) fn result(answer: Answer) -> Result<(), Error> {
    Error::of(answer.number, answer.place)
}

/// Tests the inputs.
///
/// # Errors
///
/// Rules 1 to 6, 19, in this order: [`NumWrSuccesses`](crate::Rule::NumWrSuccesses),
/// [`NormBound`](crate::Rule::NormBound), [`Dimension`](crate::Rule::Dimension), [`FracBits`](crate::Rule::FracBits),
/// [`ChunkLen`](crate::Rule::ChunkLen), [`NumWrTests`](crate::Rule::NumWrTests), [`Alpha`](crate::Rule::Alpha).
pub fn check_param(param: PineParam) -> Result<(), Error> {
    // SAFETY: numbers by value.
    result(unsafe { ffi::pine_check_param(param.into()) })
}

/// The record and every length.
///
/// # Errors
///
/// Those of [`check_param`].
pub fn derive(param: PineParam) -> Result<Derived, Error> {
    // SAFETY: numbers by value.
    derived(unsafe { ffi::pine_derive(param.into()) })
}

pub(crate) fn derived(given: ffi::Derived) -> Result<Derived, Error> {
    result(given.answer)?;
    Ok(Derived {
        record: given.pine,
        stream_len: given.stream_len,
        flp: given.flp,
        flp_sq_norm_equal: given.flp_sq_norm_equal,
    })
}

/// floor(x · 2^frac_bits) modulo p.
///
/// # Errors
///
/// Rules 4, 8, 17, in this order, place 0: [`FracBits`](crate::Rule::FracBits),
/// [`Coordinate`](crate::Rule::Coordinate), [`Floor`](crate::Rule::Floor).
pub fn f64_to_field(x: f64, frac_bits: u64) -> Result<u64, Error> {
    // SAFETY: numbers by value.
    let coordinate = unsafe { ffi::pine_f64_to_field(x, frac_bits) };
    result(coordinate.answer)?;
    Ok(coordinate.element)
}

/// The nearest double to y, or to y - p for y above (p - 1) / 2, divided by 2^frac_bits.
///
/// # Errors
///
/// Rules 4, 12, in this order, place 0: [`FracBits`](crate::Rule::FracBits), [`Element`](crate::Rule::Element).
pub fn field_to_f64(y: u64, frac_bits: u64) -> Result<f64, Error> {
    // SAFETY: numbers by value.
    let decoded = unsafe { ffi::pine_field_to_f64(y, frac_bits) };
    result(decoded.answer)?;
    Ok(decoded.value)
}

/// Encodes a gradient, with a stream of random bytes (`stream_len`), into a measurement (`encoded_input_len`) and the
/// results of the wraparound tests (`num_wr_tests`).
///
/// # Errors
///
/// Those of [`check_param`], then rules 7, 8 with 17, 9, 21, 10, 11 or 20, in this order:
/// [`RowLen`](crate::Rule::RowLen) of the rows 2 to 4, [`Coordinate`](crate::Rule::Coordinate) with
/// [`Floor`](crate::Rule::Floor), [`GradientLen`](crate::Rule::GradientLen), [`TrueSqNorm`](crate::Rule::TrueSqNorm),
/// [`SqNorm`](crate::Rule::SqNorm), [`WrTest`](crate::Rule::WrTest) or [`WrTestsInRange`](crate::Rule::WrTestsInRange).
pub fn encode_with_wr_joint_rand(
    param: PineParam,
    gradient: &[f64],
    stream: &[u8],
    measurement: &mut [u64],
    results: &mut [u64],
) -> Result<(), Error> {
    // SAFETY: each pointer is a slice's own, with that slice's length; the borrows keep them apart.
    result(unsafe {
        ffi::pine_encode_with_wr_joint_rand(
            param.into(),
            gradient.as_ptr(),
            gradient.len(),
            stream.as_ptr(),
            stream.len(),
            measurement.as_mut_ptr(),
            measurement.len(),
            results.as_mut_ptr(),
            results.len(),
        )
    })
}

/// As [`encode_with_wr_joint_rand`], with a seed ([`SEED_LEN`](crate::SEED_LEN)) in the stream's place: it gives what
/// that gives on the stream that the seed makes. [`Seed`](crate::Seed) says what a seed must be.
///
/// # Errors
///
/// Those of [`encode_with_wr_joint_rand`]; a seed of another length is [`RowLen`](crate::Rule::RowLen) of row 2.
pub fn encode_with_wr_joint_rand_seed(
    param: PineParam,
    gradient: &[f64],
    seed: &[u8],
    measurement: &mut [u64],
    results: &mut [u64],
) -> Result<(), Error> {
    // SAFETY: each pointer is a slice's own, with that slice's length; the borrows keep them apart.
    result(unsafe {
        ffi::pine_encode_with_wr_joint_rand_seed(
            param.into(),
            gradient.as_ptr(),
            gradient.len(),
            seed.as_ptr(),
            seed.len(),
            measurement.as_mut_ptr(),
            measurement.len(),
            results.as_mut_ptr(),
            results.len(),
        )
    })
}

/// The wraparound tests alone, on a share of the gradient's elements (`dimension`), with the report's stream
/// (`stream_len`), into the results (`num_wr_tests`). A result out of range is no refusal here.
///
/// # Errors
///
/// Those of [`check_param`], then rules 7, 12, in this order: [`RowLen`](crate::Rule::RowLen),
/// [`Element`](crate::Rule::Element) of the first row.
pub fn run_wr_tests(
    param: PineParam,
    gradient: &[u64],
    stream: &[u8],
    results: &mut [u64],
) -> Result<(), Error> {
    // SAFETY: each pointer is a slice's own, with that slice's length; the borrows keep them apart.
    result(unsafe {
        ffi::pine_run_wr_tests(
            param.into(),
            gradient.as_ptr(),
            gradient.len(),
            stream.as_ptr(),
            stream.len(),
            results.as_mut_ptr(),
            results.len(),
        )
    })
}

/// As [`run_wr_tests`], with the report's seed ([`SEED_LEN`](crate::SEED_LEN)) in the stream's place: it gives what that
/// gives on the stream that the seed makes.
///
/// # Errors
///
/// Those of [`run_wr_tests`]; a seed of another length is [`RowLen`](crate::Rule::RowLen) of row 2.
pub fn run_wr_tests_seed(
    param: PineParam,
    gradient: &[u64],
    seed: &[u8],
    results: &mut [u64],
) -> Result<(), Error> {
    // SAFETY: each pointer is a slice's own, with that slice's length; the borrows keep them apart.
    result(unsafe {
        ffi::pine_run_wr_tests_seed(
            param.into(),
            gradient.as_ptr(),
            gradient.len(),
            seed.as_ptr(),
            seed.len(),
            results.as_mut_ptr(),
            results.len(),
        )
    })
}

/// Encodes a gradient and cuts its measurement in two, as the original's `shard_with_rand` does up to the proofs: with a
/// nonce ([`NONCE_LEN`](crate::NONCE_LEN)) and five seeds ([`CUT_SEEDS_LEN`](crate::CUT_SEEDS_LEN)), into the leader's
/// share and the helper's (`encoded_input_len` each) and the two seeds given
/// ([`JOINT_RAND_SEEDS_LEN`](crate::JOINT_RAND_SEEDS_LEN)). The shares add up to the measurement that
/// [`encode_with_wr_joint_rand_seed`] gives with the first of these. [`CutSeeds`](crate::CutSeeds) says what the seeds
/// must be, [`JointRandSeeds`](crate::JointRandSeeds) what those given are.
///
/// # Errors
///
/// Those of [`check_param`], then rules 7, 8 with 17, 9, 21, 10, 18, 11 or 20, in this order:
/// [`RowLen`](crate::Rule::RowLen) of the rows 2 to 6, [`Coordinate`](crate::Rule::Coordinate) with
/// [`Floor`](crate::Rule::Floor), [`GradientLen`](crate::Rule::GradientLen), [`TrueSqNorm`](crate::Rule::TrueSqNorm),
/// [`SqNorm`](crate::Rule::SqNorm), [`Draws`](crate::Rule::Draws), [`WrTest`](crate::Rule::WrTest) or
/// [`WrTestsInRange`](crate::Rule::WrTestsInRange).
pub fn cut(
    param: PineParam,
    gradient: &[f64],
    nonce: &[u8],
    seeds: &[u8],
    leader: &mut [u64],
    helper: &mut [u64],
    given: &mut [u8],
) -> Result<(), Error> {
    // SAFETY: each pointer is a slice's own, with that slice's length; the borrows keep them apart.
    result(unsafe {
        ffi::pine_cut(
            param.into(),
            gradient.as_ptr(),
            gradient.len(),
            nonce.as_ptr(),
            nonce.len(),
            seeds.as_ptr(),
            seeds.len(),
            leader.as_mut_ptr(),
            leader.len(),
            helper.as_mut_ptr(),
            helper.len(),
            given.as_mut_ptr(),
            given.len(),
        )
    })
}

/// The sampler by which [`cut`] makes the helper's share, over a stream that is lent (8 bytes for each of
/// `encoded_input_len` + [`MORE_DRAWS`](crate::MORE_DRAWS) values): its values below p, low byte first, fill the share
/// (`encoded_input_len`).
///
/// # Errors
///
/// Those of [`check_param`], then rules 7, 18, in this order: [`RowLen`](crate::Rule::RowLen),
/// [`Draws`](crate::Rule::Draws).
pub fn sample(param: PineParam, stream: &[u8], share: &mut [u64]) -> Result<(), Error> {
    // SAFETY: each pointer is a slice's own, with that slice's length; the borrows keep them apart.
    result(unsafe {
        ffi::pine_sample(
            param.into(),
            stream.as_ptr(),
            stream.len(),
            share.as_mut_ptr(),
            share.len(),
        )
    })
}

fn circuit(given: ffi::Circuit) -> Result<Circuit, Error> {
    result(given.answer)?;
    Ok(Circuit {
        value: given.value,
        gadget_calls: given.gadget_calls,
    })
}

/// The main circuit, `PineType`, on a full vector (`input_len`: a measurement, or one of its shares, then its results),
/// with joint randomness ([`JOINT_RAND_LEN`](crate::JOINT_RAND_LEN)): the checked elements are 0 or 1, the squared norm
/// is in its range, and num_wr_successes tests succeeded.
///
/// **`Ok` means that the arguments were in order; the report is valid where the value is 0**
/// ([`Circuit::is_valid`]), and that of [`valid_sq_norm_equal`] too.
///
/// `num_shares` is how many shares the vector was cut into: 1 for a whole vector, 2 for one of two shares, where each
/// share takes half of each of the circuit's constants. The values on two shares do not add up to the value on the
/// whole (docs/PINE.md of the project, "The circuits").
///
/// # Errors
///
/// Those of [`check_param`], then rules 7, 13, 12, in this order: [`RowLen`](crate::Rule::RowLen),
/// [`NumShares`](crate::Rule::NumShares), [`Element`](crate::Rule::Element).
pub fn valid(
    param: PineParam,
    num_shares: u64,
    full: &[u64],
    joint_rand: &[u64],
) -> Result<Circuit, Error> {
    // SAFETY: each pointer is a slice's own, with that slice's length.
    circuit(unsafe {
        ffi::pine_valid(
            param.into(),
            num_shares,
            full.as_ptr(),
            full.len(),
            joint_rand.as_ptr(),
            joint_rand.len(),
        )
    })
}

/// The norm circuit, `PineTypeSquaredNormEqual`, on a full vector: the squared norm is the gradient's.
///
/// **`Ok` means that the arguments were in order; the report is valid where the value is 0** ([`Circuit::is_valid`]),
/// and that of [`valid`] too. `num_shares` is what it is there, is tested, and has no other use here: this circuit has
/// no constants. The values on two shares do not add up to the value on the whole.
///
/// # Errors
///
/// Those of [`check_param`], then rules 7, 13, 12, in this order: [`RowLen`](crate::Rule::RowLen),
/// [`NumShares`](crate::Rule::NumShares), [`Element`](crate::Rule::Element).
pub fn valid_sq_norm_equal(
    param: PineParam,
    num_shares: u64,
    full: &[u64],
) -> Result<Circuit, Error> {
    // SAFETY: the pointer is the slice's own, with its length.
    circuit(unsafe {
        ffi::pine_valid_sq_norm_equal(param.into(), num_shares, full.as_ptr(), full.len())
    })
}

fn part(full: &[u64], given: ffi::Part) -> Result<&[u64], Error> {
    result(given.answer)?;
    let start = given.start as usize;
    Ok(&full[start..start + given.len as usize])
}

/// The gradient's elements of a full vector (`input_len`).
///
/// # Errors
///
/// Those of [`check_param`], then rules 7, 12, in this order: [`RowLen`](crate::Rule::RowLen),
/// [`Element`](crate::Rule::Element).
pub fn gradient_part(param: PineParam, full: &[u64]) -> Result<&[u64], Error> {
    // SAFETY: the pointer is the slice's own, with its length.
    part(full, unsafe {
        ffi::pine_gradient_part(param.into(), full.as_ptr(), full.len())
    })
}

/// The checked elements of a full vector (`input_len`).
///
/// # Errors
///
/// Those of [`check_param`], then rules 7, 12, in this order: [`RowLen`](crate::Rule::RowLen),
/// [`Element`](crate::Rule::Element).
pub fn checked_part(param: PineParam, full: &[u64]) -> Result<&[u64], Error> {
    // SAFETY: the pointer is the slice's own, with its length.
    part(full, unsafe {
        ffi::pine_checked_part(param.into(), full.as_ptr(), full.len())
    })
}

/// The results of a full vector (`input_len`).
///
/// # Errors
///
/// Those of [`check_param`], then rules 7, 12, in this order: [`RowLen`](crate::Rule::RowLen),
/// [`Element`](crate::Rule::Element).
pub fn results_part(param: PineParam, full: &[u64]) -> Result<&[u64], Error> {
    // SAFETY: the pointer is the slice's own, with its length.
    part(full, unsafe {
        ffi::pine_results_part(param.into(), full.as_ptr(), full.len())
    })
}

/// Makes the aggregate of no shares (`dimension`).
///
/// # Errors
///
/// Those of [`check_param`], then rule 7: [`RowLen`](crate::Rule::RowLen).
pub fn empty_aggregate(param: PineParam, row: &mut [u64]) -> Result<(), Error> {
    // SAFETY: the pointer is the slice's own, with its length.
    result(unsafe { ffi::pine_empty_aggregate(param.into(), row.as_mut_ptr(), row.len()) })
}

/// Adds a share to an aggregate (`dimension` each).
///
/// # Errors
///
/// Those of [`check_param`], then rules 7, 12, in this order: [`RowLen`](crate::Rule::RowLen),
/// [`Element`](crate::Rule::Element) of the aggregate and the share.
pub fn accumulate(param: PineParam, agg: &mut [u64], share: &[u64]) -> Result<(), Error> {
    // SAFETY: each pointer is a slice's own, with that slice's length; the borrows keep them apart.
    result(unsafe {
        ffi::pine_accumulate(
            param.into(),
            agg.as_mut_ptr(),
            agg.len(),
            share.as_ptr(),
            share.len(),
        )
    })
}

/// Adds another aggregate to an aggregate (`dimension` each).
///
/// # Errors
///
/// Those of [`check_param`], then rules 7, 12, in this order: [`RowLen`](crate::Rule::RowLen),
/// [`Element`](crate::Rule::Element) of both aggregates.
pub fn merge(param: PineParam, agg: &mut [u64], other: &[u64]) -> Result<(), Error> {
    // SAFETY: each pointer is a slice's own, with that slice's length; the borrows keep them apart.
    result(unsafe {
        ffi::pine_merge(
            param.into(),
            agg.as_mut_ptr(),
            agg.len(),
            other.as_ptr(),
            other.len(),
        )
    })
}

/// Takes a share out of an aggregate (`dimension` each), whether or not it was added.
///
/// # Errors
///
/// Those of [`check_param`], then rules 7, 12, in this order: [`RowLen`](crate::Rule::RowLen),
/// [`Element`](crate::Rule::Element) of the aggregate and the share.
pub fn subtract(param: PineParam, agg: &mut [u64], share: &[u64]) -> Result<(), Error> {
    // SAFETY: each pointer is a slice's own, with that slice's length; the borrows keep them apart.
    result(unsafe {
        ffi::pine_subtract(
            param.into(),
            agg.as_mut_ptr(),
            agg.len(),
            share.as_ptr(),
            share.len(),
        )
    })
}

/// Takes another aggregate out of an aggregate (`dimension` each).
///
/// # Errors
///
/// Those of [`check_param`], then rules 7, 12, in this order: [`RowLen`](crate::Rule::RowLen),
/// [`Element`](crate::Rule::Element) of both aggregates.
pub fn unmerge(param: PineParam, agg: &mut [u64], other: &[u64]) -> Result<(), Error> {
    // SAFETY: each pointer is a slice's own, with that slice's length; the borrows keep them apart.
    result(unsafe {
        ffi::pine_unmerge(
            param.into(),
            agg.as_mut_ptr(),
            agg.len(),
            other.as_ptr(),
            other.len(),
        )
    })
}

/// Adds two aggregates and writes the sums as doubles (`dimension` each).
///
/// # Errors
///
/// Those of [`check_param`], then rules 7, 12, in this order: [`RowLen`](crate::Rule::RowLen),
/// [`Element`](crate::Rule::Element) of both aggregates.
pub fn unshard(
    param: PineParam,
    left: &[u64],
    right: &[u64],
    decoded: &mut [f64],
) -> Result<(), Error> {
    // SAFETY: each pointer is a slice's own, with that slice's length; the borrows keep them apart.
    result(unsafe {
        ffi::pine_unshard(
            param.into(),
            left.as_ptr(),
            left.len(),
            right.as_ptr(),
            right.len(),
            decoded.as_mut_ptr(),
            decoded.len(),
        )
    })
}
