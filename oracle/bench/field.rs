//! The fields that calls are over: how an element lies in a row, and the calls of libpine_c.a, include/pine.h, that both
//! fields have rows of.

use crate::{by_hand::Number, by_hand_calls::Param, Random};
use pine_oracle::fields::Elem;
use prio_draft09::field::{Field128, Field64, FieldElementWithInteger};

#[repr(C)]
#[derive(Debug, PartialEq)]
pub struct Answer {
    pub number: u64,
    pub place: u64,
}

#[repr(C)]
pub struct Circuit<Words> {
    pub answer: Answer,
    pub value: Words,
    pub gadget_calls: u64,
}

pub type Adding = unsafe extern "C" fn(Param, *mut u64, usize, *const u64, usize) -> Answer;

pub struct Calls<Words> {
    pub encode:
        unsafe extern "C" fn(Param, *const f64, usize, *const u8, usize, *mut u64, usize, *mut u64, usize) -> Answer,
    pub run_wr_tests: unsafe extern "C" fn(Param, *const u64, usize, *const u8, usize, *mut u64, usize) -> Answer,
    pub valid: unsafe extern "C" fn(Param, u64, *const u64, usize, *const u64, usize) -> Circuit<Words>,
    pub valid_sq_norm_equal: unsafe extern "C" fn(Param, u64, *const u64, usize) -> Circuit<Words>,
    pub accumulate: Adding,
    pub unshard: unsafe extern "C" fn(Param, *const u64, usize, *const u64, usize, *mut f64, usize) -> Answer,
}

/// The calls of these names, in the order of `Calls`.
macro_rules! calls {
    ($words:ty, $encode:ident, $tests:ident, $valid:ident, $equal:ident, $accumulate:ident, $unshard:ident) => {{
        extern "C" {
            fn $encode(
                param: Param,
                gradient: *const f64,
                gradient_len: usize,
                stream: *const u8,
                stream_len: usize,
                measurement: *mut u64,
                measurement_len: usize,
                results: *mut u64,
                results_len: usize,
            ) -> Answer;
            fn $tests(
                param: Param,
                gradient: *const u64,
                gradient_len: usize,
                stream: *const u8,
                stream_len: usize,
                results: *mut u64,
                results_len: usize,
            ) -> Answer;
            fn $valid(
                param: Param,
                num_shares: u64,
                full: *const u64,
                full_len: usize,
                joint_rand: *const u64,
                joint_rand_len: usize,
            ) -> Circuit<$words>;
            fn $equal(param: Param, num_shares: u64, full: *const u64, full_len: usize) -> Circuit<$words>;
            fn $accumulate(param: Param, agg: *mut u64, agg_len: usize, share: *const u64, share_len: usize) -> Answer;
            fn $unshard(
                param: Param,
                left: *const u64,
                left_len: usize,
                right: *const u64,
                right_len: usize,
                decoded: *mut f64,
                decoded_len: usize,
            ) -> Answer;
        }
        Calls {
            encode: $encode,
            run_wr_tests: $tests,
            valid: $valid,
            valid_sq_norm_equal: $equal,
            accumulate: $accumulate,
            unshard: $unshard,
        }
    }};
}

/// The original's elements, and their numbers as one has them by hand.
pub trait Field: Elem<Integer: Number + From<Self>> {
    const CALLS: Calls<Words<Self>>;

    /// The kind of a row of a call, and what its name ends in.
    const KIND: &'static str;
    const SUFFIX: &'static str;

    /// A sum that can be decoded, of either sign.
    fn random_sum(random: &mut Random) -> Self;
}

/// An element by hand.
pub type ByHand<F> = <F as FieldElementWithInteger>::Integer;

/// An element in a row, low first.
pub type Words<F> = <ByHand<F> as Number>::Words;

impl Field for Field64 {
    const CALLS: Calls<[u64; 1]> = calls!(
        [u64; 1],
        pine_encode_with_wr_joint_rand,
        pine_run_wr_tests,
        pine_valid,
        pine_valid_sq_norm_equal,
        pine_accumulate,
        pine_unshard
    );
    const KIND: &'static str = "call";
    const SUFFIX: &'static str = "";

    fn random_sum(random: &mut Random) -> Field64 {
        Field64::from(random.element::<u64>())
    }
}

impl Field for Field128 {
    const CALLS: Calls<[u64; 2]> = calls!(
        [u64; 2],
        pine128_encode_with_wr_joint_rand,
        pine128_run_wr_tests,
        pine128_valid,
        pine128_valid_sq_norm_equal,
        pine128_accumulate,
        pine128_unshard
    );
    const KIND: &'static str = "call128";
    const SUFFIX: &'static str = "128";

    /// As large as Field64's: larger ones are refused from 2^64 on.
    fn random_sum(random: &mut Random) -> Field128 {
        let size = Field128::from(u128::from(random.next() >> 1));
        if random.next() % 2 == 0 {
            size
        } else {
            -size
        }
    }
}

/// How many words an element has in a row.
pub fn width<F: Field>() -> usize {
    Words::<F>::default().as_ref().len()
}

pub fn words_of<N: Number>(row: impl IntoIterator<Item = N>) -> Vec<u64> {
    let words: Vec<N::Words> = row.into_iter().map(N::words).collect();
    words.iter().flat_map(N::Words::as_ref).copied().collect()
}

pub fn random_row<F: Field>(random: &mut Random, n: usize) -> Vec<u64> {
    words_of((0..n).map(|_| random.element::<ByHand<F>>()))
}

pub fn numbers<F: Field>(row: &[u64]) -> Vec<ByHand<F>> {
    row.chunks_exact(width::<F>()).map(ByHand::<F>::of_words).collect()
}

pub fn fields<F: Field>(row: &[u64]) -> Vec<F> {
    numbers::<F>(row).into_iter().map(F::from).collect()
}

pub fn words<F: Field>(row: &[F]) -> Vec<u64> {
    words_of(row.iter().map(|x| ByHand::<F>::from(*x)))
}
