//! The inputs.

use crate::{
    field::{Field, FIELD128, FIELD64, P64},
    param::{within, Limits, Param, Sizes, ALPHA, CHUNK, D, F, T},
    random::Random,
};
use std::sync::LazyLock;

/// The last n before n x n gets one more binary digit, the test bound doubles or Field64 ends, and the first n after:
/// those over Field64, and those over Field128.
static STEPS: LazyLock<[Vec<u64>; 2]> = LazyLock::new(|| {
    let last = |k: u32| [((1u128 << k) - 1).isqrt(), 10 * ((1u128 << k) - 1) / 87];
    let mut steps: Vec<u64> = (0..=64).flat_map(last).flat_map(|n| [n as u64, n as u64 + 1]).collect();
    steps.extend([FIELD64.norm_bound.1, FIELD64.norm_bound.1 + 1]);
    steps.sort();
    steps.dedup();
    [&FIELD64, &FIELD128].map(|field| steps.iter().copied().filter(|n| within(*n, field.norm_bound)).collect())
});

/// Where a narrower or a signed number would go wrong.
const WIDE: [u64; 15] = [
    127,
    255,
    1 << 16,
    (1 << 31) - 1,
    1 << 31,
    (1 << 32) - 1,
    1 << 32,
    1 << 53,
    P64 / 2,
    P64 / 2 + 1,
    (1 << 63) - 1,
    1 << 63,
    P64 - 1,
    P64,
    u64::MAX,
];

/// An edge, by a power of two, of any length, or any.
pub fn allowed(random: &mut Random, (low, high): Limits) -> u64 {
    let digits = 64 - u64::from(high.leading_zeros());
    match random.below(4) {
        0 => random.pick(&[low, low + 1, high - 1, high]),
        1 => {
            let power = 1 << random.below(digits);
            random.near(power).clamp(low, high)
        }
        2 => random.short(digits).clamp(low, high),
        _ => random.between(low, high),
    }
}

/// Just outside, one that looks right in its low half, by a wide one, or any.
pub fn broken(random: &mut Random, (low, high): Limits) -> u64 {
    loop {
        let x = match random.below(5) {
            0 => random.pick(&[low.saturating_sub(1), high + 1, high + 2, 2 * high]),
            1 => (random.next() << 32) + random.between(low, high),
            2 => {
                let wide = random.pick(&WIDE);
                random.near(wide)
            }
            3 => {
                let power = 1 << random.below(64);
                random.near(power)
            }
            _ => random.short(64),
        };
        if !within(x, (low, high)) {
            return x;
        }
    }
}

fn successes(random: &mut Random, t: u64) -> u64 {
    let any = random.between(0, t);
    random.pick(&[0, 1, t - 1, t, t, any]).min(t)
}

fn norm_bound(random: &mut Random, field: &Field) -> u64 {
    if random.once_in(2) {
        random.pick(&STEPS[field.words - 1])
    } else {
        allowed(random, field.norm_bound)
    }
}

/// By one of the lengths that it cuts: 1, all, one more, a part that leaves a short chunk; rarely a long one.
fn chunk(random: &mut Random, lengths: &[u64]) -> u64 {
    let length = random.pick(lengths);
    let chunk = match random.below(128) {
        0 => random.pick(&[65535, 65536]),
        1..24 => 1,
        24..48 => random.near(length),
        _ => {
            let part = length / (1 + random.below(9));
            random.near(part)
        }
    };
    chunk.clamp(1, 65536)
}

/// A byte that is 0 or not: 0 in two of three, else most often 1.
fn choice(random: &mut Random) -> u8 {
    let any = random.next() as u8;
    random.pick(&[0, 0, 0, 0, 0, 0, 1, 1, any])
}

/// Another multiplier, and half of the time a norm bound at which its test bound doubles, or the one before.
fn multiply(random: &mut Random, param: &mut Param) {
    param.alpha = [0; 2].map(|_| allowed(random, ALPHA) as u16);
    let [above, below] = param.alpha.map(u128::from);
    let power = 1 << (1 + random.below(48));
    let step = ((power - 1) * below / above) as u64 + random.below(2);
    if within(step, param.field.norm_bound) && random.once_in(2) {
        param.n = step;
    }
}

/// A number of the multiplier, or both, set to 0.
pub fn break_alpha(random: &mut Random, param: &mut Param) {
    let [above, below] = param.alpha;
    param.alpha = random.pick(&[[0, below], [above, 0], [0, 0]]);
}

fn with_chunks(random: &mut Random, field: &'static Field, d: u64, f: u64, t: u64) -> Param {
    let mut param = Param::standard(field, [norm_bound(random, field), d, f, 1, 1, t, successes(random, t)]);
    (param.test_rule, param.true_norm) = (choice(random), choice(random));
    if random.once_in(4) {
        multiply(random, &mut param);
    }
    let checked = Sizes::of(&param).checked as u64;
    param.c = chunk(random, &[checked, checked, t]);
    param.e = chunk(random, &[d]);
    param
}

/// Any that are within their limits.
pub fn any(random: &mut Random, field: &'static Field) -> Param {
    let (d, f, t) = (allowed(random, D), allowed(random, F), allowed(random, T));
    let mut param = with_chunks(random, field, d, f, t);
    if random.once_in(2) {
        (param.c, param.e) = (allowed(random, CHUNK), allowed(random, CHUNK));
    }
    param
}

/// d and T: most often few, so that there can be millions of calls; 1 in 16 some hundreds and dozens, 1 in 128 of
/// any length that is allowed, 1 in 1024 the longest.
fn shape(random: &mut Random) -> (u64, u64) {
    match random.below(1024) {
        0 => (D.1 - random.below(4), T.1 - random.below(2)),
        1..8 => (1 + random.short(16), 1 + random.short(8)),
        8..64 => (1 + random.short(9), 1 + random.short(5)),
        64..256 => (1 + random.below(24), 1 + random.below(9)),
        _ => (1 + random.below(9), 1 + random.below(3)),
    }
}

/// One input just beyond its limit, so that the rows can have the lengths which that would give.
fn just_beyond(random: &mut Random, param: &mut Param) {
    match random.below(8) {
        0 => param.n = param.field.norm_bound.1 + 1,
        1 => param.d = D.1 + 1,
        2 => param.f = F.1 + 1,
        3 => param.c = CHUNK.1 + 1,
        4 => param.e = CHUNK.1 + 1,
        5 => param.t = T.1 + 1,
        6 => break_alpha(random, param),
        _ => param.k = param.t + 1,
    }
}

fn with_shape(random: &mut Random, field: &'static Field, (d, t): (u64, u64)) -> Param {
    let f = if random.once_in(2) { 0 } else { random.between(F.0, F.1) };
    with_chunks(random, field, d, f, t)
}

/// For calls on rows of one length.
pub fn dimension(random: &mut Random) -> u64 {
    shape(random).0
}

/// For one of these calls.
pub fn of_dimension(random: &mut Random, field: &'static Field, d: u64) -> Param {
    let (_, t) = shape(random);
    with_shape(random, field, (d, t))
}

/// For a call that has rows.
pub fn for_rows(random: &mut Random, field: &'static Field) -> Param {
    let shape = shape(random);
    let mut param = with_shape(random, field, shape);
    if random.once_in(128) {
        just_beyond(random, &mut param);
    }
    param
}
