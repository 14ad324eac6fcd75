//! What a call must answer, by docs/PINE.md alone.

use crate::{
    case::{Call, Case, Row},
    field::Field,
    param::{within, Param, Sizes, CHUNK, D, F, SHARES, T},
    seed::{self, SEED_LEN},
    shares::{self, Brought, FIVE_LEN, GIVEN_LEN, NONCE_LEN},
    whole,
};
use std::fmt::{Display, Formatter};

#[repr(C)]
#[derive(Clone, Copy, PartialEq, Eq)]
pub struct Answer {
    pub number: u64,
    pub place: u64,
}

pub const ACCEPTED: Answer = Answer { number: 0, place: 0 };

impl Display for Answer {
    fn fmt(&self, to: &mut Formatter) -> std::fmt::Result {
        if *self == ACCEPTED {
            return write!(to, "accepted");
        }
        write!(to, "refused {} {}", self.number, self.place)
    }
}

/// The refusal by a rule that is broken.
fn rule(number: u64, broken: bool) -> Option<Answer> {
    broken.then_some(Answer { number, place: 0 })
}

fn rule_at(number: u64, place: Option<usize>) -> Option<Answer> {
    place.map(|place| Answer { number, place: place as u64 })
}

fn rule_4(param: &Param) -> Option<Answer> {
    rule(4, !within(param.f, F))
}

fn rules_on_inputs(param: &Param) -> Option<Answer> {
    rule(1, param.k > param.t)
        .or(rule(2, !within(param.n, param.field.norm_bound)))
        .or(rule(3, !within(param.d, D)))
        .or(rule_4(param))
        .or(rule(5, !within(param.c, CHUNK) || !within(param.e, CHUNK)))
        .or(rule(6, !within(param.t, T)))
        .or(rule(19, param.alpha.contains(&0)))
}

/// The lengths that the rows must have, but for the gradient of doubles.
fn derived(call: Call, param: &Param) -> Vec<Option<usize>> {
    let sizes = Sizes::of(param);
    let words = |elements: usize| Some(param.field.words * elements);
    let [d, t] = [param.d, param.t].map(|elements| words(elements as usize));
    match call {
        Call::CheckParam | Call::Derive | Call::F64ToField | Call::FieldToF64 => vec![],
        Call::Encode => vec![None, Some(sizes.stream), words(sizes.measurement), t],
        Call::EncodeSeed => vec![None, Some(SEED_LEN), words(sizes.measurement), t],
        Call::RunWrTests => vec![d, Some(sizes.stream), t],
        Call::RunWrTestsSeed => vec![d, Some(SEED_LEN), t],
        Call::Cut => {
            let [len, given] = [sizes.measurement, GIVEN_LEN].map(Some);
            vec![None, Some(NONCE_LEN), Some(FIVE_LEN), len, len, given]
        }
        Call::Sample => vec![Some(shares::draws_len(&sizes)), Some(sizes.measurement)],
        Call::Valid => vec![words(sizes.full), words(3)],
        Call::ValidSqNormEqual | Call::GradientPart | Call::CheckedPart | Call::ResultsPart => vec![words(sizes.full)],
        Call::EmptyAggregate => vec![d],
        Call::Accumulate | Call::Merge | Call::Subtract | Call::Unmerge => vec![d, d],
        Call::Unshard => vec![d, d, Some(param.d as usize)],
    }
}

fn rule_7(case: &Case) -> Option<Answer> {
    let derived = derived(case.call, &case.param);
    assert_eq!(derived.len(), case.rows.len());
    let wrong = |(row, len): (&Row, &Option<usize>)| len.is_some_and(|len| len != row.len());
    rule_at(7, case.rows.iter().zip(&derived).position(wrong).map(|at| at + 1))
}

fn rule_12(case: &Case) -> Option<Answer> {
    let field = case.field();
    rule_at(12, case.rows.iter().flat_map(|row| field.elements(row.elements())).position(|x| x >= field.p))
}

fn rule_13(case: &Case) -> Option<Answer> {
    rule(13, case.call.has_shares() && !within(case.number as u64, SHARES))
}

fn is_too_large(field: &Field, x: u128) -> bool {
    field.centred(x).unsigned_abs() > field.decoded
}

/// Of the sums that are decoded.
fn rule_23(case: &Case) -> Option<Answer> {
    let (Call::Unshard, [left, right, _]) = (case.call, &case.rows[..]) else {
        return None;
    };
    let field = case.field();
    let [left, right] = [left, right].map(|row| field.elements(row.words()));
    rule_at(23, left.iter().zip(&right).position(|(x, y)| is_too_large(field, field.sum(*x, *y))))
}

/// Rule 11, or 20 in its place.
fn rule_on_tests(param: &Param, numbers: &[i128], stream: &[u8]) -> Option<Answer> {
    let mut in_range = whole::in_range(param, numbers, stream);
    if !param.lets_miss() {
        return rule_at(11, in_range.position(|in_range| !in_range));
    }
    let found = in_range.filter(|in_range| *in_range).count();
    rule_at(20, (found < param.k as usize).then_some(found))
}

/// Rules 21 and 10.
fn rules_on_norm(param: &Param, sizes: &Sizes, numbers: &[i128]) -> Option<Answer> {
    let is_long = || whole::true_squared_norm(numbers).is_none_or(|norm| norm > sizes.bound);
    rule(21, param.bounds_true_norm() && is_long())
        .or_else(|| rule(10, whole::squared_norm(param.field, numbers) > sizes.bound))
}

fn rule_18(found: &[u64], sizes: &Sizes) -> Option<Answer> {
    rule(18, found.len() < sizes.measurement)
}

/// Rule 18 of a cut, and the stream of its tests.
fn drawn(case: &Case, numbers: &[i128], sizes: &Sizes) -> Result<Vec<u8>, Answer> {
    match (case.call, &case.rows[..]) {
        (Call::EncodeSeed, [_, Row::Bytes(bytes), ..]) => Ok(seed::stream(bytes, sizes.stream)),
        (Call::Cut, [_, Row::Bytes(nonce), Row::Bytes(five), ..]) => {
            let brought = Brought { nonce, five };
            rule_18(&brought.helper(sizes), sizes).map_or(Ok(()), Err)?;
            Ok(seed::stream(&brought.wr_seed(&case.param, numbers), sizes.stream))
        }
        (_, [_, Row::Bytes(bytes), ..]) => Ok(bytes.clone()),
        _ => unreachable!(),
    }
}

fn rules_on_numbers(case: &Case, numbers: &[i128]) -> Option<Answer> {
    let sizes = Sizes::of(&case.param);
    rules_on_norm(&case.param, &sizes, numbers).or_else(|| match drawn(case, numbers, &sizes) {
        Ok(stream) => rule_on_tests(&case.param, numbers, &stream),
        Err(refusal) => Some(refusal),
    })
}

fn rules_on_gradient(case: &Case) -> Option<Answer> {
    let [Row::Doubles(gradient), ..] = &case.rows[..] else {
        return None;
    };
    let coordinate = |(i, x): (usize, &u64)| {
        whole::coordinate_rule(case.field(), *x, case.param.f).map(|number| Answer { number, place: i as u64 })
    };
    let rule_8_or_17 = gradient.iter().enumerate().find_map(coordinate);
    rule_8_or_17
        .or_else(|| rule(9, gradient.len() as u64 != case.param.d))
        .or_else(|| rules_on_numbers(case, &whole::floors(gradient, case.param.f)))
}

fn rule_on_sample(case: &Case) -> Option<Answer> {
    let (Call::Sample, [Row::Bytes(stream), _]) = (case.call, &case.rows[..]) else {
        return None;
    };
    let sizes = Sizes::of(&case.param);
    rule_18(&shares::sampled(stream, sizes.measurement), &sizes)
}

fn rules_on_coordinate(case: &Case) -> Option<Answer> {
    let number = || whole::coordinate_rule(case.field(), case.number as u64, case.param.f);
    rule_4(&case.param).or_else(|| number().map(|number| Answer { number, place: 0 }))
}

fn rules_on_element(case: &Case) -> Option<Answer> {
    let field = case.field();
    rule_4(&case.param).or(rule(12, case.number >= field.p)).or_else(|| rule(23, is_too_large(field, case.number)))
}

pub fn answer(case: &Case) -> Answer {
    let refusal = match case.call {
        Call::F64ToField => rules_on_coordinate(case),
        Call::FieldToF64 => rules_on_element(case),
        _ => rules_on_inputs(&case.param)
            .or_else(|| rule_7(case))
            .or_else(|| rule_13(case))
            .or_else(|| rule_12(case))
            .or_else(|| rule_23(case))
            .or_else(|| rules_on_gradient(case))
            .or_else(|| rule_on_sample(case)),
    };
    refusal.unwrap_or(ACCEPTED)
}
