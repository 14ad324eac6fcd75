//! Damage to a case. The rows keep what fitted the inputs before.

use crate::{
    case::{Case, Row},
    draw::{elements, params, singles},
    field::Field,
    param::{Param, CHUNK, D, F, SHARES, T},
    random::Random,
    whole::{EXPONENT, SIGN},
};

fn input(random: &mut Random, param: &mut Param) {
    match random.below(8) {
        0 => param.n = params::broken(random, param.field.norm_bound),
        1 => param.d = params::broken(random, D),
        2 => param.f = params::broken(random, F),
        3 => param.c = params::broken(random, CHUNK),
        4 => param.e = params::broken(random, CHUNK),
        5 => param.t = params::broken(random, T),
        6 => params::break_alpha(random, param),
        _ => {
            let more = random.short(63);
            param.k = param.t.saturating_add(random.pick(&[1, 2, 1 << 32, u64::MAX, more]));
        }
    }
}

/// In words, where it is one of elements: so it may end within one.
fn other_length(random: &mut Random, field: &Field, len: usize) -> usize {
    let [word, element] = [1, field.words].map(|less| len.saturating_sub(less));
    let more = [len + 1, len + 1, len + field.words, len + 4, 2 * len, 2 * len + 1];
    let other = if random.once_in(2) { random.pick(&[0, word, word, element, len / 2]) } else { random.pick(&more) };
    if other == len {
        len + 1
    } else {
        other
    }
}

fn length(random: &mut Random, field: &Field, row: &mut Row) {
    let len = other_length(random, field, row.len());
    match row {
        Row::Doubles(row) => row.resize_with(len, || if random.once_in(4) { singles::double(random, 0) } else { 0 }),
        Row::Elements(row) | Row::Aggregate(row) => {
            let more = elements::row(random, field, len.saturating_sub(row.len()));
            row.extend(field.row(&more));
            row.truncate(len);
        }
        Row::Bytes(bytes) | Row::WrittenBytes(bytes) => bytes.resize_with(len, || random.next() as u8),
        Row::Written(row) => row.resize_with(len, || random.next()),
    }
}

fn unusable(random: &mut Random) -> u64 {
    random.pick(&[0, SIGN])
        | random.pick(&[1, 1 << 51, (1 << 52) - 1, EXPONENT, EXPONENT + 1, EXPONENT + (1 << 51), SIGN - 1])
}

/// How many numbers it has that can be spoilt.
fn spoilable(field: &Field, row: &Row) -> usize {
    match row {
        Row::Doubles(row) => row.len(),
        _ => row.elements().len() / field.words,
    }
}

/// One number of it or two, or its length where it has none to spoil.
fn content(random: &mut Random, param: &Param, row: &mut Row) {
    let (field, many) = (param.field, spoilable(param.field, row));
    if many == 0 {
        return length(random, field, row);
    }
    for _ in 0..random.between(1, 2) {
        let at = random.index(many);
        match row {
            Row::Doubles(row) => {
                row[at] = match random.below(4) {
                    0 => singles::double(random, param.f),
                    1 => singles::beyond(random, field, param.f),
                    _ => unusable(random),
                }
            }
            Row::Elements(row) | Row::Aggregate(row) => {
                let words = field.row(&[elements::not_an_element(random, field)]);
                row[field.words * at..][..field.words].copy_from_slice(&words);
            }
            Row::Bytes(_) | Row::Written(_) | Row::WrittenBytes(_) => (),
        }
    }
}

pub fn once(random: &mut Random, case: &mut Case) {
    if case.rows.is_empty() || random.once_in(2) {
        return input(random, &mut case.param);
    }
    if case.call.has_shares() && random.once_in(3) {
        case.number = params::broken(random, SHARES).into();
        return;
    }
    let at = if random.once_in(2) { 0 } else { random.index(case.rows.len()) };
    if random.once_in(2) {
        length(random, case.param.field, &mut case.rows[at]);
    } else {
        content(random, &case.param, &mut case.rows[at]);
    }
}
