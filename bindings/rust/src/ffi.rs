//! The calls as include/pine.h declares them.
use crate::param::{Lengths, PineParam, Record, WrTestRule};
use core::mem::{align_of, offset_of, size_of};

/// `PineParam` of the header.
#[repr(C)]
pub struct Inputs {
    norm_bound: u64,
    dimension: u64,
    frac_bits: u64,
    chunk_len: u64,
    chunk_len_sq_norm_equal: u64,
    num_wr_tests: u64,
    num_wr_successes: u64,
    alpha_numerator: u16,
    alpha_denominator: u16,
    wr_test_rule: u8,
    true_sq_norm: u8,
}

impl From<PineParam> for Inputs {
    fn from(param: PineParam) -> Inputs {
        Inputs {
            norm_bound: param.norm_bound,
            dimension: param.dimension,
            frac_bits: param.frac_bits,
            chunk_len: param.chunk_len,
            chunk_len_sq_norm_equal: param.chunk_len_sq_norm_equal,
            num_wr_tests: param.num_wr_tests,
            num_wr_successes: param.num_wr_successes,
            alpha_numerator: param.alpha_numerator,
            alpha_denominator: param.alpha_denominator,
            wr_test_rule: match param.wr_test_rule {
                WrTestRule::Every => 0,
                WrTestRule::Enough => 1,
            },
            true_sq_norm: param.true_sq_norm.into(),
        }
    }
}

#[repr(C)]
pub struct Answer {
    pub number: u64,
    pub place: u64,
}

#[repr(C)]
pub struct Derived {
    pub answer: Answer,
    pub pine: Record,
    pub stream_len: u64,
    pub flp: Lengths,
    pub flp_sq_norm_equal: Lengths,
}

#[repr(C)]
pub struct Coordinate {
    pub answer: Answer,
    pub element: u64,
}

#[repr(C)]
pub struct Decoded {
    pub answer: Answer,
    pub value: f64,
}

#[repr(C)]
pub struct Circuit {
    pub answer: Answer,
    pub value: u64,
    pub gadget_calls: u64,
}

/// `PineElement128` of the header: an element of Field128 as its words.
#[repr(C)]
pub struct Element128 {
    low: u64,
    high: u64,
}

impl From<u128> for Element128 {
    fn from(element: u128) -> Element128 {
        Element128 {
            low: element as u64,
            high: (element >> 64) as u64,
        }
    }
}

impl From<Element128> for u128 {
    fn from(element: Element128) -> u128 {
        u128::from(element.high) << 64 | u128::from(element.low)
    }
}

#[repr(C)]
pub struct Coordinate128 {
    pub answer: Answer,
    pub element: Element128,
}

#[repr(C)]
pub struct Circuit128 {
    pub answer: Answer,
    pub value: Element128,
    pub gadget_calls: u64,
}

#[repr(C)]
pub struct Part {
    pub answer: Answer,
    pub start: u64,
    pub len: u64,
}

/// `PineFileKey` of the header: eight bytes.
#[repr(C)]
pub struct FileKey {
    pub bytes: [u8; 8],
}

const _: () = assert!(size_of::<FileKey>() == 8 && align_of::<FileKey>() == 1);

#[repr(C)]
pub struct FileLen {
    pub answer: Answer,
    pub len: u64,
}

/// A struct of the header as the tests hold it to the header's text: its name there, its size, and of each field the
/// name, the type and the offset.
#[cfg(test)]
pub type Layout = (
    &'static str,
    usize,
    &'static [(&'static str, &'static str, usize)],
);

/// Has the compiler test each struct's size and alignment, and the type and offset of each field.
macro_rules! layouts {
    ($($struct:ident is $name:literal, $size:literal: $($field:ident: $type:ident = $offset:literal),*;)*) => {
        $(const _: () = {
            assert!(size_of::<$struct>() == $size && align_of::<$struct>() == 8);
            $(
                assert!(offset_of!($struct, $field) == $offset);
                let _: fn(&$struct) -> &$type = |of| &of.$field;
            )*
        };)*

        #[cfg(test)]
        pub const LAYOUTS: &[Layout] = &[
            $(($name, $size, &[$((stringify!($field), stringify!($type), $offset)),*]),)*
        ];
    };
}

layouts! {
    Answer is "PineAnswer", 16: number: u64 = 0, place: u64 = 8;
    Inputs is "PineParam", 64:
        norm_bound: u64 = 0,
        dimension: u64 = 8,
        frac_bits: u64 = 16,
        chunk_len: u64 = 24,
        chunk_len_sq_norm_equal: u64 = 32,
        num_wr_tests: u64 = 40,
        num_wr_successes: u64 = 48,
        alpha_numerator: u16 = 56,
        alpha_denominator: u16 = 58,
        wr_test_rule: u8 = 60,
        true_sq_norm: u8 = 61;
    Record is "PineRecord", 128:
        dimension: u64 = 0,
        frac_bits: u64 = 8,
        scale: f64 = 16,
        chunk_len: u64 = 24,
        chunk_len_sq_norm_equal: u64 = 32,
        num_wr_tests: u64 = 40,
        num_wr_successes: u64 = 48,
        sq_norm_bound: u64 = 56,
        sq_norm_bits: u64 = 64,
        wr_test_exponent: u8 = 72,
        wr_test_bits: u64 = 80,
        bit_checked_len: u64 = 88,
        encoded_input_len: u64 = 96,
        input_len: u64 = 104,
        gadget_calls: u64 = 112,
        gadget_calls_sq_norm_equal: u64 = 120;
    Lengths is "PineLengths", 48:
        input_len: u64 = 0,
        proof_len: u64 = 8,
        verifier_len: u64 = 16,
        joint_rand_len: u64 = 24,
        prove_rand_len: u64 = 32,
        query_rand_len: u64 = 40;
    Derived is "PineDerived", 248:
        answer: Answer = 0,
        pine: Record = 16,
        stream_len: u64 = 144,
        flp: Lengths = 152,
        flp_sq_norm_equal: Lengths = 200;
    Coordinate is "PineCoordinate", 24: answer: Answer = 0, element: u64 = 16;
    Decoded is "PineDecoded", 24: answer: Answer = 0, value: f64 = 16;
    Circuit is "PineCircuit", 32: answer: Answer = 0, value: u64 = 16, gadget_calls: u64 = 24;
    Part is "PinePart", 32: answer: Answer = 0, start: u64 = 16, len: u64 = 24;
    FileLen is "PineFileLen", 24: answer: Answer = 0, len: u64 = 16;
    Element128 is "PineElement128", 16: low: u64 = 0, high: u64 = 8;
    Coordinate128 is "PineCoordinate128", 32: answer: Answer = 0, element: Element128 = 16;
    Circuit128 is "PineCircuit128", 40: answer: Answer = 0, value: Element128 = 16, gadget_calls: u64 = 32;
}

// a row's length is a size_t there, and the lengths that are derived are 64-bit numbers
const _: () = assert!(size_of::<usize>() == size_of::<u64>());

extern "C" {
    pub fn pine_check_param(param: Inputs) -> Answer;
    pub fn pine_derive(param: Inputs) -> Derived;
    pub fn pine_wr_test_bound(pine: Record) -> u64;
    pub fn pine_f64_to_field(x: f64, frac_bits: u64) -> Coordinate;
    pub fn pine_field_to_f64(y: u64, frac_bits: u64) -> Decoded;
    pub fn pine_encode_with_wr_joint_rand(
        param: Inputs,
        gradient: *const f64,
        gradient_len: usize,
        stream: *const u8,
        stream_len: usize,
        measurement: *mut u64,
        measurement_len: usize,
        results: *mut u64,
        results_len: usize,
    ) -> Answer;
    pub fn pine_encode_with_wr_joint_rand_seed(
        param: Inputs,
        gradient: *const f64,
        gradient_len: usize,
        seed: *const u8,
        seed_len: usize,
        measurement: *mut u64,
        measurement_len: usize,
        results: *mut u64,
        results_len: usize,
    ) -> Answer;
    pub fn pine_run_wr_tests(
        param: Inputs,
        gradient: *const u64,
        gradient_len: usize,
        stream: *const u8,
        stream_len: usize,
        results: *mut u64,
        results_len: usize,
    ) -> Answer;
    pub fn pine_run_wr_tests_seed(
        param: Inputs,
        gradient: *const u64,
        gradient_len: usize,
        seed: *const u8,
        seed_len: usize,
        results: *mut u64,
        results_len: usize,
    ) -> Answer;
    pub fn pine_cut(
        param: Inputs,
        gradient: *const f64,
        gradient_len: usize,
        nonce: *const u8,
        nonce_len: usize,
        seeds: *const u8,
        seeds_len: usize,
        leader: *mut u64,
        leader_len: usize,
        helper: *mut u64,
        helper_len: usize,
        given: *mut u8,
        given_len: usize,
    ) -> Answer;
    pub fn pine_sample(
        param: Inputs,
        stream: *const u8,
        stream_len: usize,
        share: *mut u64,
        share_len: usize,
    ) -> Answer;
    pub fn pine_valid(
        param: Inputs,
        num_shares: u64,
        full: *const u64,
        full_len: usize,
        joint_rand: *const u64,
        joint_rand_len: usize,
    ) -> Circuit;
    pub fn pine_valid_sq_norm_equal(
        param: Inputs,
        num_shares: u64,
        full: *const u64,
        full_len: usize,
    ) -> Circuit;
    pub fn pine_gradient_part(param: Inputs, full: *const u64, full_len: usize) -> Part;
    pub fn pine_checked_part(param: Inputs, full: *const u64, full_len: usize) -> Part;
    pub fn pine_results_part(param: Inputs, full: *const u64, full_len: usize) -> Part;
    pub fn pine_empty_aggregate(param: Inputs, row: *mut u64, row_len: usize) -> Answer;
    pub fn pine_accumulate(
        param: Inputs,
        agg: *mut u64,
        agg_len: usize,
        share: *const u64,
        share_len: usize,
    ) -> Answer;
    pub fn pine_merge(
        param: Inputs,
        agg: *mut u64,
        agg_len: usize,
        other: *const u64,
        other_len: usize,
    ) -> Answer;
    pub fn pine_subtract(
        param: Inputs,
        agg: *mut u64,
        agg_len: usize,
        share: *const u64,
        share_len: usize,
    ) -> Answer;
    pub fn pine_unmerge(
        param: Inputs,
        agg: *mut u64,
        agg_len: usize,
        other: *const u64,
        other_len: usize,
    ) -> Answer;
    pub fn pine_unshard(
        param: Inputs,
        left: *const u64,
        left_len: usize,
        right: *const u64,
        right_len: usize,
        decoded: *mut f64,
        decoded_len: usize,
    ) -> Answer;
    pub fn pine_file_read(
        param: Inputs,
        file: *const u8,
        file_len: usize,
        contents: *mut u8,
        contents_len: usize,
        bodies: *mut u64,
        bodies_len: usize,
    ) -> Answer;
    pub fn pine_file_write(
        param: Inputs,
        count: u64,
        contents: *const u8,
        contents_len: usize,
        bodies: *const u64,
        bodies_len: usize,
        file: *mut u8,
        file_len: usize,
    ) -> Answer;
    pub fn pine_file_max(param: Inputs, reports: u32) -> FileLen;
    pub fn pine_file_add(
        param: Inputs,
        key: FileKey,
        old: *const u8,
        old_len: usize,
        share: *const u64,
        share_len: usize,
        second: *mut u8,
        second_len: usize,
    ) -> FileLen;
    pub fn pine_file_size(param: Inputs, keys: *const u8, keys_len: usize) -> FileLen;
    pub fn pine128_check_param(param: Inputs) -> Answer;
    pub fn pine128_derive(param: Inputs) -> Derived;
    pub fn pine128_f64_to_field(x: f64, frac_bits: u64) -> Coordinate128;
    pub fn pine128_field_to_f64(y: Element128, frac_bits: u64) -> Decoded;
    pub fn pine128_encode_with_wr_joint_rand(
        param: Inputs,
        gradient: *const f64,
        gradient_len: usize,
        stream: *const u8,
        stream_len: usize,
        measurement: *mut u64,
        measurement_len: usize,
        results: *mut u64,
        results_len: usize,
    ) -> Answer;
    pub fn pine128_run_wr_tests(
        param: Inputs,
        gradient: *const u64,
        gradient_len: usize,
        stream: *const u8,
        stream_len: usize,
        results: *mut u64,
        results_len: usize,
    ) -> Answer;
    pub fn pine128_valid(
        param: Inputs,
        num_shares: u64,
        full: *const u64,
        full_len: usize,
        joint_rand: *const u64,
        joint_rand_len: usize,
    ) -> Circuit128;
    pub fn pine128_valid_sq_norm_equal(
        param: Inputs,
        num_shares: u64,
        full: *const u64,
        full_len: usize,
    ) -> Circuit128;
    pub fn pine128_empty_aggregate(param: Inputs, row: *mut u64, row_len: usize) -> Answer;
    pub fn pine128_accumulate(
        param: Inputs,
        agg: *mut u64,
        agg_len: usize,
        share: *const u64,
        share_len: usize,
    ) -> Answer;
    pub fn pine128_merge(
        param: Inputs,
        agg: *mut u64,
        agg_len: usize,
        other: *const u64,
        other_len: usize,
    ) -> Answer;
    pub fn pine128_subtract(
        param: Inputs,
        agg: *mut u64,
        agg_len: usize,
        share: *const u64,
        share_len: usize,
    ) -> Answer;
    pub fn pine128_unmerge(
        param: Inputs,
        agg: *mut u64,
        agg_len: usize,
        other: *const u64,
        other_len: usize,
    ) -> Answer;
    pub fn pine128_unshard(
        param: Inputs,
        left: *const u64,
        left_len: usize,
        right: *const u64,
        right_len: usize,
        decoded: *mut f64,
        decoded_len: usize,
    ) -> Answer;
}
