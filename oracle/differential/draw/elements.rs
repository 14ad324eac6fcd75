//! Rows of field numbers.

use crate::{
    field::{digits, Field},
    random::Random,
};

pub fn element(random: &mut Random, field: &Field) -> u128 {
    match random.below(4) {
        0 => random.pick(field.edges),
        1 => {
            let small = random.below(1001).into();
            random.pick(&[small, field.negated(small)])
        }
        2 => random.short_wide(digits(field.p)) % field.p,
        _ => random.next_wide() % field.p,
    }
}

pub fn not_an_element(random: &mut Random, field: &Field) -> u128 {
    let largest = u128::MAX >> (128 - digits(field.p));
    let any = largest - random.next_wide() % (largest - field.p + 1);
    if random.once_in(6) {
        any
    } else {
        random.pick(field.not_elements)
    }
}

pub fn joint_rand(random: &mut Random, field: &Field) -> u128 {
    if random.once_in(4) {
        random.pick(&[0, 1, field.p - 1])
    } else {
        element(random, field)
    }
}

pub fn row(random: &mut Random, field: &Field, len: usize) -> Vec<u128> {
    (0..len).map(|_| element(random, field)).collect()
}

/// The first 53 binary digits of numbers to be rounded.
const TOPS: [u64; 4] = [1 << 52, (1 << 52) + 1, (1 << 53) - 2, (1 << 53) - 1];

/// A number of 54 to 64 binary digits that lies half way between two doubles, or next to one that does.
pub fn tie(random: &mut Random) -> u128 {
    let more = random.between(1, 11);
    let top = if random.once_in(2) { random.pick(&TOPS) } else { (1 << 52) + (random.next() >> 12) };
    u128::from((top << more) + (1 << (more - 1)) + random.below(3) - 1)
}

/// A sum that can be decoded: where its sign, the digits of a double or its limit turn, or any.
fn total(random: &mut Random, field: &Field) -> u128 {
    let size = match random.below(4) {
        0 => random.next_wide() % (field.decoded + 1),
        1 => {
            let turn = random.pick(&[0, 1 << 53, (1 << 54) + 2, (1 << 54) + 6, field.decoded]);
            random.near_wide(turn)
        }
        _ => tie(random),
    };
    let size = size.min(field.decoded);
    random.pick(&[size, field.negated(size)])
}

pub fn totals(random: &mut Random, field: &Field, len: usize) -> Vec<u128> {
    (0..len).map(|_| total(random, field)).collect()
}

/// One that cannot: there are some over Field128.
pub fn too_large(random: &mut Random, field: &Field) -> u128 {
    let (least, most) = (field.decoded + 1, field.half());
    let any = least + random.next_wide() % (most - least + 1);
    let size = random.pick(&[least, least, least + 1, 2 * least, most - 1, most, any]);
    random.pick(&[size, field.negated(size)])
}

/// What each number is short of its total.
pub fn lacking(field: &Field, totals: &[u128], row: &[u128]) -> Vec<u128> {
    totals.iter().zip(row).map(|(total, x)| field.difference(*total, *x)).collect()
}

/// A row whose sums with the first are often such that matter.
pub fn completed(random: &mut Random, field: &Field, left: &[u128]) -> Vec<u128> {
    let other = |x: &u128| {
        if random.once_in(2) {
            element(random, field)
        } else {
            field.difference(total(random, field), *x)
        }
    };
    left.iter().map(other).collect()
}
