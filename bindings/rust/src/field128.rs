//! The calls over Field128, over slices of `u128`: each is that of its name at the crate's root, with p of
//! [`FIELD128_MODULUS`](crate::FIELD128_MODULUS).
//!
//! A row's length is in elements here, as the lengths of [`derive`](derive()) are. The archive takes rows of 64-bit words, two to
//! an element, low first. On x86-64 a `u128` lies in memory as just these two words, so a row is lent to a call as it
//! is, and nothing is copied. What that costs: a `u128` is aligned to 16 bytes, where the archive asks for 8, so
//! that words which came from elsewhere are to be copied into such a row.
//!
//! ```
//! # fn main() -> Result<(), jihmeto_pine::Error> {
//! use jihmeto_pine::{field128, PineParam};
//!
//! let param = PineParam::standard(1 << 12, 2, 8, 16, 2, 10, 10);
//! let (mut agg, mut sums) = ([1 << 40, 256], [0.0; 2]);
//! field128::accumulate(param, &mut agg, &[1 << 70, 128])?;
//! assert_eq!(agg, [(1 << 70) + (1 << 40), 384]);
//! field128::subtract(param, &mut agg, &[1 << 70, 0])?;
//! field128::unshard(param, &agg, &[0; 2], &mut sums)?;
//! assert_eq!(sums, [4294967296.0, 1.5]);
//! # Ok(())
//! # }
//! ```
use crate::calls::{derived, result, Circuit};
use crate::error::Error;
use crate::ffi::{self, Answer, Inputs};
use crate::param::{Derived, PineParam};
use core::mem::{align_of, size_of};
use core::slice;

// a u128 is two words, the low one first
const _: () = assert!(
    cfg!(target_endian = "little")
        && size_of::<u128>() == 2 * size_of::<u64>()
        && align_of::<u128>() >= align_of::<u64>()
);

fn words(row: &[u128]) -> &[u64] {
    // SAFETY: the same bytes: twice as many words of half the size, aligned for them, and every u64 is one.
    unsafe { slice::from_raw_parts(row.as_ptr().cast(), 2 * row.len()) }
}

fn words_mut(row: &mut [u128]) -> &mut [u64] {
    // SAFETY: as in words, and any two words are a u128.
    unsafe { slice::from_raw_parts_mut(row.as_mut_ptr().cast(), 2 * row.len()) }
}

/// [`check_param`](crate::check_param()), with norm_bound up to 4294967295.
///
/// # Errors
///
/// Those named there.
pub fn check_param(param: PineParam) -> Result<(), Error> {
    // SAFETY: numbers by value.
    result(unsafe { ffi::pine128_check_param(param.into()) })
}

/// [`derive`](crate::derive()), with norm_bound up to 4294967295. The lengths are in elements.
///
/// # Errors
///
/// Those of [`check_param`].
pub fn derive(param: PineParam) -> Result<Derived, Error> {
    // SAFETY: numbers by value.
    derived(unsafe { ffi::pine128_derive(param.into()) })
}

/// [`f64_to_field`](crate::f64_to_field()).
///
/// # Errors
///
/// Those named there.
pub fn f64_to_field(x: f64, frac_bits: u64) -> Result<u128, Error> {
    // SAFETY: numbers by value.
    let coordinate = unsafe { ffi::pine128_f64_to_field(x, frac_bits) };
    result(coordinate.answer)?;
    Ok(coordinate.element.into())
}

/// [`field_to_f64`](crate::field_to_f64()).
///
/// # Errors
///
/// Rules 4, 12, 23, in this order, place 0: [`FracBits`](crate::Rule::FracBits), [`Element`](crate::Rule::Element),
/// [`Size`](crate::Rule::Size).
pub fn field_to_f64(y: u128, frac_bits: u64) -> Result<f64, Error> {
    // SAFETY: numbers by value.
    let decoded = unsafe { ffi::pine128_field_to_f64(y.into(), frac_bits) };
    result(decoded.answer)?;
    Ok(decoded.value)
}

/// [`encode_with_wr_joint_rand`](crate::encode_with_wr_joint_rand()).
///
/// # Errors
///
/// Those named there.
pub fn encode_with_wr_joint_rand(
    param: PineParam,
    gradient: &[f64],
    stream: &[u8],
    measurement: &mut [u128],
    results: &mut [u128],
) -> Result<(), Error> {
    let (measurement, results) = (words_mut(measurement), words_mut(results));
    // SAFETY: each pointer is a slice's own, with that slice's length; the borrows keep them apart.
    result(unsafe {
        ffi::pine128_encode_with_wr_joint_rand(
            param.into(),
            gradient.as_ptr(),
            gradient.len(),
            stream.as_ptr(),
            stream.len(),
            measurement.as_mut_ptr(),
            measurement.len(),
            results.as_mut_ptr(),
            results.len(),
        )
    })
}

/// [`run_wr_tests`](crate::run_wr_tests()).
///
/// # Errors
///
/// Those named there.
pub fn run_wr_tests(
    param: PineParam,
    gradient: &[u128],
    stream: &[u8],
    results: &mut [u128],
) -> Result<(), Error> {
    let (gradient, results) = (words(gradient), words_mut(results));
    // SAFETY: each pointer is a slice's own, with that slice's length; the borrows keep them apart.
    result(unsafe {
        ffi::pine128_run_wr_tests(
            param.into(),
            gradient.as_ptr(),
            gradient.len(),
            stream.as_ptr(),
            stream.len(),
            results.as_mut_ptr(),
            results.len(),
        )
    })
}

fn circuit(given: ffi::Circuit128) -> Result<Circuit<u128>, Error> {
    result(given.answer)?;
    Ok(Circuit {
        value: given.value.into(),
        gadget_calls: given.gadget_calls,
    })
}

/// [`valid`](crate::valid()).
///
/// # Errors
///
/// Those named there.
pub fn valid(
    param: PineParam,
    num_shares: u64,
    full: &[u128],
    joint_rand: &[u128],
) -> Result<Circuit<u128>, Error> {
    let (full, joint_rand) = (words(full), words(joint_rand));
    // SAFETY: each pointer is a slice's own, with that slice's length.
    circuit(unsafe {
        ffi::pine128_valid(
            param.into(),
            num_shares,
            full.as_ptr(),
            full.len(),
            joint_rand.as_ptr(),
            joint_rand.len(),
        )
    })
}

/// [`valid_sq_norm_equal`](crate::valid_sq_norm_equal()).
///
/// # Errors
///
/// Those named there.
pub fn valid_sq_norm_equal(
    param: PineParam,
    num_shares: u64,
    full: &[u128],
) -> Result<Circuit<u128>, Error> {
    let full = words(full);
    // SAFETY: the pointer is the slice's own, with its length.
    circuit(unsafe {
        ffi::pine128_valid_sq_norm_equal(param.into(), num_shares, full.as_ptr(), full.len())
    })
}

/// [`empty_aggregate`](crate::empty_aggregate()).
///
/// # Errors
///
/// Those named there.
pub fn empty_aggregate(param: PineParam, row: &mut [u128]) -> Result<(), Error> {
    let row = words_mut(row);
    // SAFETY: the pointer is the slice's own, with its length.
    result(unsafe { ffi::pine128_empty_aggregate(param.into(), row.as_mut_ptr(), row.len()) })
}

/// A call that adds a row to an aggregate or takes it out.
type OnAggregate = unsafe extern "C" fn(Inputs, *mut u64, usize, *const u64, usize) -> Answer;

fn on_aggregate(
    call: OnAggregate,
    param: PineParam,
    agg: &mut [u128],
    row: &[u128],
) -> Result<(), Error> {
    let (agg, row) = (words_mut(agg), words(row));
    // SAFETY: each pointer is a slice's own, with that slice's length; the borrows keep them apart.
    result(unsafe {
        call(
            param.into(),
            agg.as_mut_ptr(),
            agg.len(),
            row.as_ptr(),
            row.len(),
        )
    })
}

/// [`accumulate`](crate::accumulate()).
///
/// # Errors
///
/// Those named there.
pub fn accumulate(param: PineParam, agg: &mut [u128], share: &[u128]) -> Result<(), Error> {
    on_aggregate(ffi::pine128_accumulate, param, agg, share)
}

/// [`merge`](crate::merge()).
///
/// # Errors
///
/// Those named there.
pub fn merge(param: PineParam, agg: &mut [u128], other: &[u128]) -> Result<(), Error> {
    on_aggregate(ffi::pine128_merge, param, agg, other)
}

/// [`subtract`](crate::subtract()).
///
/// # Errors
///
/// Those named there.
pub fn subtract(param: PineParam, agg: &mut [u128], share: &[u128]) -> Result<(), Error> {
    on_aggregate(ffi::pine128_subtract, param, agg, share)
}

/// [`unmerge`](crate::unmerge()).
///
/// # Errors
///
/// Those named there.
pub fn unmerge(param: PineParam, agg: &mut [u128], other: &[u128]) -> Result<(), Error> {
    on_aggregate(ffi::pine128_unmerge, param, agg, other)
}

/// [`unshard`](crate::unshard()). One sum too large, and the whole row is refused.
///
/// # Errors
///
/// Those named there, then rule 23: [`Size`](crate::Rule::Size) of a sum.
pub fn unshard(
    param: PineParam,
    left: &[u128],
    right: &[u128],
    decoded: &mut [f64],
) -> Result<(), Error> {
    let (left, right) = (words(left), words(right));
    // SAFETY: each pointer is a slice's own, with that slice's length; the borrows keep them apart.
    result(unsafe {
        ffi::pine128_unshard(
            param.into(),
            left.as_ptr(),
            left.len(),
            right.as_ptr(),
            right.len(),
            decoded.as_mut_ptr(),
            decoded.len(),
        )
    })
}

#[cfg(test)]
mod tests {
    use super::{words, words_mut};

    #[test]
    fn a_row_is_its_words_low_first() {
        let mut row = [1u128 << 64 | 2, 3, u128::MAX];
        let max = u64::MAX;
        assert_eq!(words(&row), [2, 1, 3, 0, max, max]);
        assert_eq!(words(&row).as_ptr().cast(), row.as_ptr());
        words_mut(&mut row)[3] = 5;
        assert_eq!(row[1], 5 << 64 | 3);
        assert!(words(&row[3..]).is_empty());
    }
}
