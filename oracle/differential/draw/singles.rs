//! One coordinate, one field number.

use crate::{
    case::{Call, Case},
    draw::{
        elements::{not_an_element, tie},
        params,
    },
    field::{digits, Field, P64},
    param::{Param, F},
    random::Random,
    whole::{EXPONENT, SIGN},
};

/// Numbers that matter after scaling: where the floor, the digits of a double, a field or the limit of a floor turn.
const MARKS: [f64; 17] = [
    0.5,
    1.0,
    2.0,
    3.0,
    2147483648.0,
    4294967296.0,
    4503599627370496.0,
    9007199254740992.0,
    4611686018427387904.0,
    (P64 / 2) as f64,
    9223372036854775808.0,
    P64 as f64,
    18446744073709549568.0,
    18446744073709551616.0,
    36893488147419103232.0,
    170141183460469231731687303715884105728.0,
    340282366920938463463374607431768211456.0,
];

fn of_one(random: &mut Random, field: &'static Field, call: Call, number: impl Fn(&mut Random, u64) -> u128) -> Case {
    let f = if random.once_in(16) { params::broken(random, F) } else { params::allowed(random, F) };
    let param = Param::standard(field, [1, 1, f, 1, 1, 1, 1]);
    Case { call, param, number: number(random, f), rows: vec![] }
}

/// x / 2^f, some steps up or down, for an x above 0; an f that is not allowed counts modulo 32.
fn over(x: f64, f: u64, steps: i64) -> u64 {
    let bits = x.to_bits() as i64 - (((f & 31) as i64) << 52);
    (bits + steps).clamp(0, i64::MAX) as u64
}

fn steps(random: &mut Random, most: u64) -> i64 {
    random.below(2 * most + 1) as i64 - most as i64
}

fn size(random: &mut Random, f: u64) -> u64 {
    match random.below(8) {
        0 => {
            let edge = random.below(2049) << 52;
            (edge + random.below(3)).saturating_sub(1).min(SIGN - 1)
        }
        1 => {
            let half = random.short(64).max(1) as f64 / 2.0;
            over(half, f, steps(random, 1))
        }
        2 => {
            let mark = random.pick(&MARKS);
            over(mark, f, steps(random, 3))
        }
        3 => (random.between(2014, 2046) << 52) + (random.next() >> 12),
        4 => {
            let any = random.next() >> 12;
            random.pick(&[0, EXPONENT]) + random.pick(&[0, 1, any, 1 << 51, (1 << 52) - 1])
        }
        5 => random.next() >> 1,
        way => {
            let x = random.unit() * 10f64.powi(steps(random, 6) as i32);
            if way == 6 { x } else { (x * 100.0).round() / 100.0 }.to_bits()
        }
    }
}

/// Any double's bits, for a scale of 2^f.
pub fn double(random: &mut Random, f: u64) -> u64 {
    size(random, f) | random.pick(&[0, SIGN])
}

/// The largest double whose floor is not beyond the limit.
fn largest(field: &Field) -> f64 {
    let near = field.floor as f64;
    if near as u128 > field.floor {
        f64::from_bits(near.to_bits() - 1)
    } else {
        near
    }
}

/// The bits of a double whose floor is beyond the limit, for a scale of 2^f.
pub fn beyond(random: &mut Random, field: &Field, f: u64) -> u64 {
    let size = random.pick(&MARKS).max(largest(field));
    over(size, f, 1 + steps(random, 1).abs()) | random.pick(&[0, SIGN])
}

pub fn f64_to_field(random: &mut Random, field: &'static Field) -> Case {
    of_one(random, field, Call::F64ToField, |random, f| double(random, f).into())
}

fn to_decode(random: &mut Random, field: &Field) -> u128 {
    let y = match random.below(8) {
        0 => {
            let turns = [0, field.decoded, field.half(), field.p, 1 << 32, 1 << 53, 1 << 54];
            let turn = random.pick(&turns);
            random.near_wide(turn)
        }
        1 => tie(random),
        2 => {
            let power = 1 << random.index(digits(field.p));
            random.near_wide(power)
        }
        3 => random.short(53).into(),
        4 => not_an_element(random, field),
        5 => random.next_wide() % field.p,
        _ => random.next_wide() % (field.decoded + 1),
    };
    if y < field.p && random.once_in(2) {
        field.negated(y)
    } else {
        y
    }
}

pub fn field_to_f64(random: &mut Random, field: &'static Field) -> Case {
    of_one(random, field, Call::FieldToF64, |random, _| to_decode(random, field))
}
