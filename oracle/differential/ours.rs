//! The calls of libpine_c.a, as include/pine.h declares them. A double in a struct that is handed back goes by its
//! bits: such a struct comes back through memory.

use crate::{
    case::{Call, Case},
    lent::Lent,
    param::Param,
    rules::Answer,
};

/// PineParam.
#[repr(C)]
#[derive(Clone, Copy)]
struct Inputs {
    seven: [u64; 7],
    alpha: [u16; 2],
    test_rule: u8,
    true_norm: u8,
}

const _: () = assert!(size_of::<Inputs>() == 64);

impl From<&Param> for Inputs {
    fn from(param: &Param) -> Inputs {
        let Param { alpha, test_rule, true_norm, .. } = *param;
        Inputs { seven: param.inputs(), alpha, test_rule, true_norm }
    }
}

/// An element, by its words, as it is handed over.
#[repr(C)]
struct Element<const WORDS: usize>([u64; WORDS]);

impl<const WORDS: usize> From<u128> for Element<WORDS> {
    fn from(x: u128) -> Element<WORDS> {
        Element(std::array::from_fn(|i| (x >> (64 * i)) as u64))
    }
}

#[repr(C)]
struct With<const VALUES: usize> {
    answer: Answer,
    values: [u64; VALUES],
}

/// PineRecord, by its words.
#[repr(C)]
struct Record([u64; 16]);

/// The word of the test bound's exponent, a byte.
const EXPONENT: usize = 9;

/// What a call gave beside its rows.
pub struct Given {
    pub answer: Answer,
    pub values: Vec<u64>,
}

impl From<Answer> for Given {
    fn from(answer: Answer) -> Given {
        Given { answer, values: vec![] }
    }
}

impl<const VALUES: usize> From<With<VALUES>> for Given {
    fn from(with: With<VALUES>) -> Given {
        Given { answer: with.answer, values: with.values.to_vec() }
    }
}

/// The numbers of PineDerived, then the test bound that its record stands for. What fills up the exponent's word is no
/// output.
fn with_bound(mut derived: With<29>) -> Given {
    derived.values[EXPONENT] &= 0xff;
    let record = Record(derived.values[..16].try_into().unwrap());
    let mut given = Given::from(derived);
    given.values.push(unsafe { pine_wr_test_bound(record) });
    given
}

/// Two aggregates that are equal are lent as one row, which a caller may do.
fn pointers(left: &mut Lent, right: &mut Lent) -> [*const u64; 2] {
    let first = left.pointer();
    [first, if left.now() == right.now() { first } else { right.pointer() }]
}

/// The calls that there are over both fields, for the one whose names begin so and whose elements have so many words.
macro_rules! calls_over {
    ($field:ident, $begin:literal, $words:literal) => {
        mod $field {
            use super::*;

            extern "C" {
                #[link_name = concat!($begin, "check_param")]
                fn check_param(param: Inputs) -> Answer;
                #[link_name = concat!($begin, "derive")]
                fn derive(param: Inputs) -> With<29>;
                #[link_name = concat!($begin, "f64_to_field")]
                fn f64_to_field(x: f64, frac_bits: u64) -> With<$words>;
                #[link_name = concat!($begin, "field_to_f64")]
                fn field_to_f64(y: Element<$words>, frac_bits: u64) -> With<1>;
                #[link_name = concat!($begin, "encode_with_wr_joint_rand")]
                fn encode(
                    param: Inputs,
                    gradient: *const f64,
                    gradient_len: usize,
                    stream: *const u8,
                    stream_len: usize,
                    measurement: *mut u64,
                    measurement_len: usize,
                    results: *mut u64,
                    results_len: usize,
                ) -> Answer;
                #[link_name = concat!($begin, "run_wr_tests")]
                fn run_wr_tests(
                    param: Inputs,
                    gradient: *const u64,
                    gradient_len: usize,
                    stream: *const u8,
                    stream_len: usize,
                    results: *mut u64,
                    results_len: usize,
                ) -> Answer;
                #[link_name = concat!($begin, "valid")]
                fn valid(
                    param: Inputs,
                    num_shares: u64,
                    full: *const u64,
                    full_len: usize,
                    joint_rand: *const u64,
                    joint_rand_len: usize,
                ) -> With<{ $words + 1 }>;
                #[link_name = concat!($begin, "valid_sq_norm_equal")]
                fn valid_sq_norm_equal(
                    param: Inputs,
                    num_shares: u64,
                    full: *const u64,
                    full_len: usize,
                ) -> With<{ $words + 1 }>;
                #[link_name = concat!($begin, "empty_aggregate")]
                fn empty_aggregate(param: Inputs, row: *mut u64, row_len: usize) -> Answer;
                #[link_name = concat!($begin, "accumulate")]
                fn accumulate(param: Inputs, agg: *mut u64, agg_len: usize, share: *const u64, len: usize) -> Answer;
                #[link_name = concat!($begin, "merge")]
                fn merge(param: Inputs, agg: *mut u64, agg_len: usize, other: *const u64, len: usize) -> Answer;
                #[link_name = concat!($begin, "subtract")]
                fn subtract(param: Inputs, agg: *mut u64, agg_len: usize, share: *const u64, len: usize) -> Answer;
                #[link_name = concat!($begin, "unmerge")]
                fn unmerge(param: Inputs, agg: *mut u64, agg_len: usize, other: *const u64, len: usize) -> Answer;
                #[link_name = concat!($begin, "unshard")]
                fn unshard(
                    param: Inputs,
                    left: *const u64,
                    left_len: usize,
                    right: *const u64,
                    right_len: usize,
                    decoded: *mut f64,
                    decoded_len: usize,
                ) -> Answer;
            }

            /// None, if it is another call.
            pub unsafe fn call(case: &Case, rows: &mut [Lent]) -> Option<Given> {
                let (p, f, number) = (Inputs::from(&case.param), case.param.f, case.number as u64);
                Some(match (case.call, rows) {
                    (Call::CheckParam, []) => check_param(p).into(),
                    (Call::Derive, []) => with_bound(derive(p)),
                    (Call::F64ToField, []) => f64_to_field(f64::from_bits(number), f).into(),
                    (Call::FieldToF64, []) => field_to_f64(case.number.into(), f).into(),
                    (Call::Encode, [g, s, m, r]) => {
                        encode(p, g.pointer(), g.len, s.pointer(), s.len, m.pointer(), m.len, r.pointer(), r.len).into()
                    }
                    (Call::RunWrTests, [g, s, r]) => {
                        run_wr_tests(p, g.pointer(), g.len, s.pointer(), s.len, r.pointer(), r.len).into()
                    }
                    (Call::Valid, [x, r]) => valid(p, number, x.pointer(), x.len, r.pointer(), r.len).into(),
                    (Call::ValidSqNormEqual, [x]) => valid_sq_norm_equal(p, number, x.pointer(), x.len).into(),
                    (Call::EmptyAggregate, [x]) => empty_aggregate(p, x.pointer(), x.len).into(),
                    (Call::Accumulate, [x, y]) => accumulate(p, x.pointer(), x.len, y.pointer(), y.len).into(),
                    (Call::Merge, [x, y]) => merge(p, x.pointer(), x.len, y.pointer(), y.len).into(),
                    (Call::Subtract, [x, y]) => subtract(p, x.pointer(), x.len, y.pointer(), y.len).into(),
                    (Call::Unmerge, [x, y]) => unmerge(p, x.pointer(), x.len, y.pointer(), y.len).into(),
                    (Call::Unshard, [x, y, decoded]) => {
                        let [left, right] = pointers(x, y);
                        unshard(p, left, x.len, right, y.len, decoded.pointer(), decoded.len).into()
                    }
                    _ => return None,
                })
            }
        }
    };
}

calls_over!(field64, "pine_", 1);
calls_over!(field128, "pine128_", 2);

#[link(name = "pine_c", kind = "static")]
extern "C" {
    fn pine_wr_test_bound(pine: Record) -> u64;
    fn pine_encode_with_wr_joint_rand_seed(
        param: Inputs,
        gradient: *const f64,
        gradient_len: usize,
        seed: *const u8,
        seed_len: usize,
        measurement: *mut u64,
        measurement_len: usize,
        results: *mut u64,
        results_len: usize,
    ) -> Answer;
    fn pine_run_wr_tests_seed(
        param: Inputs,
        gradient: *const u64,
        gradient_len: usize,
        seed: *const u8,
        seed_len: usize,
        results: *mut u64,
        results_len: usize,
    ) -> Answer;
    fn pine_cut(
        param: Inputs,
        gradient: *const f64,
        gradient_len: usize,
        nonce: *const u8,
        nonce_len: usize,
        seeds: *const u8,
        seeds_len: usize,
        leader: *mut u64,
        leader_len: usize,
        helper: *mut u64,
        helper_len: usize,
        given: *mut u8,
        given_len: usize,
    ) -> Answer;
    fn pine_sample(param: Inputs, stream: *const u8, stream_len: usize, share: *mut u64, share_len: usize) -> Answer;
    fn pine_gradient_part(param: Inputs, full: *const u64, full_len: usize) -> With<2>;
    fn pine_checked_part(param: Inputs, full: *const u64, full_len: usize) -> With<2>;
    fn pine_results_part(param: Inputs, full: *const u64, full_len: usize) -> With<2>;
}

fn cut(param: Inputs, [g, n, s]: [&mut Lent; 3], [l, h]: [&mut Lent; 2], given: &mut Lent) -> Answer {
    let (gradient, nonce, seeds) = (g.pointer(), n.pointer(), s.pointer());
    let (leader, helper, row) = (l.pointer(), h.pointer(), given.pointer());
    unsafe {
        pine_cut(param, gradient, g.len, nonce, n.len, seeds, s.len, leader, l.len, helper, h.len, row, given.len)
    }
}

/// Those over Field64 alone.
unsafe fn of_field64(case: &Case, rows: &mut [Lent]) -> Given {
    let p = Inputs::from(&case.param);
    match (case.call, rows) {
        (Call::EncodeSeed, [g, s, m, r]) => {
            let (gradient, seed, measurement, results) = (g.pointer(), s.pointer(), m.pointer(), r.pointer());
            pine_encode_with_wr_joint_rand_seed(p, gradient, g.len, seed, s.len, measurement, m.len, results, r.len)
                .into()
        }
        (Call::RunWrTestsSeed, [g, s, r]) => {
            pine_run_wr_tests_seed(p, g.pointer(), g.len, s.pointer(), s.len, r.pointer(), r.len).into()
        }
        (Call::Cut, [g, n, s, l, h, v]) => cut(p, [g, n, s], [l, h], v).into(),
        (Call::Sample, [s, x]) => pine_sample(p, s.pointer(), s.len, x.pointer(), x.len).into(),
        (Call::GradientPart, [x]) => pine_gradient_part(p, x.pointer(), x.len).into(),
        (Call::CheckedPart, [x]) => pine_checked_part(p, x.pointer(), x.len).into(),
        (Call::ResultsPart, [x]) => pine_results_part(p, x.pointer(), x.len).into(),
        _ => unreachable!("{}: another number of rows", case.name()),
    }
}

pub fn call(case: &Case, rows: &mut [Lent]) -> Given {
    unsafe {
        if case.field().is_wide() {
            field128::call(case, rows).unwrap()
        } else {
            field64::call(case, rows).unwrap_or_else(|| of_field64(case, rows))
        }
    }
}
