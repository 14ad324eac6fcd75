//! The inputs, and what follows from them.
use crate::ffi;

/// The inputs. Begin from [`PineParam::standard`].
///
/// The bound b of the wraparound tests is the smallest power of two not below ceil(alpha · norm_bound) + 1, alpha being
/// a fraction of two inputs. A result from -b + 1 to b is in range, so a smaller b refuses more streams by
/// [`Rule::WrTest`](crate::Rule::WrTest), and a larger one lets more gradients pass whose squared norm has wrapped
/// around p; how many, no proof says. Each time b doubles, a measurement has num_wr_tests elements more.
///
/// docs/PINE.md of the project, "Choosing the inputs", has what each costs.
///
/// ```
/// use jihmeto_pine::{Pine, PineParam};
/// # fn main() -> Result<(), jihmeto_pine::Error> {
/// let param = PineParam::standard(1 << 12, 2, 8, 16, 2, 10, 10);
/// let tighter = PineParam { alpha_numerator: 3, alpha_denominator: 2, ..param };
/// assert_eq!(Pine::new(param)?.wr_test_bound(), 1 << 16);
/// assert_eq!(Pine::new(tighter)?.wr_test_bound(), 1 << 13);
/// # Ok(())
/// # }
/// ```
#[derive(Clone, Copy, Debug, PartialEq, Eq, Hash)]
#[must_use]
pub struct PineParam {
    /// The bound of the norm of the floors of the gradient times 2^frac_bits, from 1 to 3037000499, over Field128 to
    /// 4294967295. So it is in units of 2^-frac_bits: with ceil(β · 2^frac_bits + √dimension) no gradient of Euclidean norm up to β is refused by
    /// [`Rule::SqNorm`](crate::Rule::SqNorm) or [`Rule::TrueSqNorm`](crate::Rule::TrueSqNorm).
    pub norm_bound: u64,
    /// The length of the gradient, from 1 to 65536.
    pub dimension: u64,
    /// The binary digits kept after the point, to 30.
    pub frac_bits: u64,
    /// The chunk length of the main circuit, [`valid`](crate::valid()), from 1 to 65536.
    pub chunk_len: u64,
    /// The chunk length of the norm circuit, [`valid_sq_norm_equal`](crate::valid_sq_norm_equal()), from 1 to 65536.
    pub chunk_len_sq_norm_equal: u64,
    /// The wraparound tests, from 1 to 256.
    pub num_wr_tests: u64,
    /// How many of them must succeed, to num_wr_tests.
    pub num_wr_successes: u64,
    /// Of alpha, from 1.
    pub alpha_numerator: u16,
    /// Of alpha, from 1.
    pub alpha_denominator: u16,
    /// Which of the tests must be in range for a gradient to be encoded.
    pub wr_test_rule: WrTestRule,
    /// Whether the squared norm, summed in whole numbers without reduction modulo p, must be within norm_bound squared,
    /// too: otherwise [`Rule::TrueSqNorm`](crate::Rule::TrueSqNorm). [`Rule::SqNorm`](crate::Rule::SqNorm) cannot occur
    /// then. How far a report that passed can move the sum: docs/SENSITIVITY.md of the project.
    pub true_sq_norm: bool,
}

/// Which of the wraparound tests must be in range for a gradient to be encoded.
///
/// By [`WrTestRule::Enough`] a client is no longer refused for a test that misses by chance: it is written as zeros,
/// and does not count. In return up to num_wr_tests - num_wr_successes tests of an accepted report may have missed; the
/// circuits show, as by the other rule, that num_wr_successes succeeded. Only encoding depends on the rule, and servers
/// need not know it.
#[derive(Clone, Copy, Debug, PartialEq, Eq, Hash)]
pub enum WrTestRule {
    /// All of them, as in the original: otherwise [`Rule::WrTest`](crate::Rule::WrTest).
    Every,
    /// At least num_wr_successes: otherwise [`Rule::WrTestsInRange`](crate::Rule::WrTestsInRange).
    Enough,
}

impl PineParam {
    /// The inputs with which the calls equal the original, which has no others, but for
    /// [`Rule::Floor`](crate::Rule::Floor): alpha is 87 / 10, every test must be in range, the switch is off.
    pub const fn standard(
        norm_bound: u64,
        dimension: u64,
        frac_bits: u64,
        chunk_len: u64,
        chunk_len_sq_norm_equal: u64,
        num_wr_tests: u64,
        num_wr_successes: u64,
    ) -> PineParam {
        PineParam {
            norm_bound,
            dimension,
            frac_bits,
            chunk_len,
            chunk_len_sq_norm_equal,
            num_wr_tests,
            num_wr_successes,
            alpha_numerator: 87,
            alpha_denominator: 10,
            wr_test_rule: WrTestRule::Every,
            true_sq_norm: false,
        }
    }
}

/// The derived record: the inputs that later calls read, and what follows from them.
#[repr(C)]
#[derive(Clone, Copy, Debug, PartialEq)]
#[must_use]
pub struct Record {
    /// As in the inputs.
    pub dimension: u64,
    /// As in the inputs.
    pub frac_bits: u64,
    /// 2^frac_bits.
    pub scale: f64,
    /// As in the inputs.
    pub chunk_len: u64,
    /// As in the inputs.
    pub chunk_len_sq_norm_equal: u64,
    /// As in the inputs.
    pub num_wr_tests: u64,
    /// As in the inputs.
    pub num_wr_successes: u64,
    /// norm_bound squared.
    pub sq_norm_bound: u64,
    /// The binary digits of sq_norm_bound.
    pub sq_norm_bits: u64,
    /// The largest test result in range is 2 to this power: [`Record::wr_test_bound`].
    pub wr_test_exponent: u8,
    /// The binary digits of a test's number.
    pub wr_test_bits: u64,
    /// The length of the checked part.
    pub bit_checked_len: u64,
    /// The length of a measurement.
    pub encoded_input_len: u64,
    /// The length of a full vector.
    pub input_len: u64,
    /// The gadget calls of the main circuit.
    pub gadget_calls: u64,
    /// The gadget calls of the norm circuit.
    pub gadget_calls_sq_norm_equal: u64,
}

impl Record {
    /// The largest test result in range; 0 for a record that holds none.
    #[must_use]
    pub fn wr_test_bound(self) -> u64 {
        // SAFETY: numbers by value.
        unsafe { ffi::pine_wr_test_bound(self) }
    }
}

/// The lengths of one circuit's vectors, in elements.
#[repr(C)]
#[derive(Clone, Copy, Debug, PartialEq, Eq)]
#[must_use]
#[allow(missing_docs)]
pub struct Lengths {
    pub input_len: u64,
    pub proof_len: u64,
    pub verifier_len: u64,
    pub joint_rand_len: u64,
    pub prove_rand_len: u64,
    pub query_rand_len: u64,
}

/// The record and every length.
#[derive(Clone, Copy, Debug, PartialEq)]
#[must_use]
pub struct Derived {
    /// The derived record.
    pub record: Record,
    /// The bytes of a stream.
    pub stream_len: u64,
    /// Of the main circuit, `PineType`.
    pub flp: Lengths,
    /// Of the norm circuit, `PineTypeSquaredNormEqual`.
    pub flp_sq_norm_equal: Lengths,
}
