//! Gradients, streams and full vectors.

use crate::{
    draw::{elements, params, singles},
    field::{digits, Field, P64},
    param::{Param, Sizes, ALPHA},
    random::Random,
    shares::{draws_len, MORE_DRAWS},
    whole::{self, SIGN},
};

/// Numbers whose squares are small modulo p, or nearly p, over Field64: with others they make a v within the bound. The
/// last two are beyond the limit of a floor, and those next to them over Field64.
const WRAPPING: [i128; 16] = [
    1 << 32,
    1 << 33,
    1 << 34,
    1 << 35,
    1 << 40,
    1 << 47,
    1 << 48,
    1 << 49,
    1 << 56,
    1 << 60,
    1 << 62,
    (P64 / 2) as i128,
    1 << 63,
    (1 << 64) - (1 << 11),
    1 << 64,
    1 << 70,
];

fn signed(random: &mut Random, x: i128) -> i128 {
    random.pick(&[x, -x])
}

fn small(random: &mut Random, most: u64) -> i128 {
    i128::from(random.below(2 * most + 1)) - i128::from(most)
}

/// Whole numbers whose squares add up to about n x n at most, or to it, or to one more.
fn in_ball(random: &mut Random, n: u64, d: usize) -> Vec<i128> {
    let way = random.below(4);
    if way == 0 {
        let mut numbers = vec![0; d];
        let edge = i128::from(n - random.below(2));
        numbers[random.index(d)] = signed(random, edge);
        if random.once_in(4) {
            numbers[random.index(d)] += 1;
        }
        return numbers;
    }
    let size = if way == 1 { 1.7 } else { 1.0 } * n as f64 / (d as f64).sqrt();
    (0..d).map(|_| ((2.0 * random.unit() - 1.0) * size) as i128).collect()
}

/// The whole root of v, and a little more or less, as a norm bound.
fn root(random: &mut Random, field: &Field, numbers: &[i128], less: u64) -> u64 {
    let (low, high) = field.norm_bound;
    let root = whole::squared_norm(field, numbers).isqrt() as u64;
    root.saturating_add(random.below(3)).saturating_sub(less).clamp(low, high)
}

/// Whole numbers for a gradient; some ways choose the norm bound by them.
pub fn numbers(random: &mut Random, param: &mut Param) -> Vec<i128> {
    let (field, d) = (param.field, param.d as usize);
    let way = if param.n > field.norm_bound.1 { 0 } else { random.below(8) };
    if way < 6 {
        let numbers = in_ball(random, param.n, d);
        if way > 3 {
            param.n = root(random, field, &numbers, 1);
        }
        return numbers;
    }
    if way == 6 {
        let numbers = if random.once_in(2) { wrapping(random, d) } else { wrapped(random, param) };
        let more = if random.once_in(2) { params::allowed(random, field.norm_bound) } else { 0 };
        param.n = root(random, field, &numbers, 0).max(more);
        return numbers;
    }
    at_test_bound(random, param)
}

/// A v that wraps.
fn wrapping(random: &mut Random, d: usize) -> Vec<i128> {
    let mut numbers: Vec<i128> = (0..d).map(|_| small(random, 2)).collect();
    if random.once_in(4) {
        let wrapping = random.pick(&WRAPPING);
        // the squares of 16 add up to 2^128, if it is 2^62
        numbers.iter_mut().take(16).for_each(|x| *x = signed(random, wrapping));
        return numbers;
    }
    for _ in 0..random.between(1, 2) {
        let wrapping = random.pick(&WRAPPING);
        numbers[random.index(d)] = signed(random, wrapping);
    }
    numbers
}

/// One or two numbers of any size, and those that bring v down to a small one.
fn wrapped(random: &mut Random, param: &Param) -> Vec<i128> {
    let (field, d) = (param.field, param.d as usize);
    let mut numbers: Vec<i128> = (0..d).map(|_| small(random, 1)).collect();
    let at = random.index(d);
    for at in [at, random.index(d)] {
        let any = singles::double(random, param.f);
        if whole::coordinate_rule(field, any, param.f).is_none() {
            numbers[at] = whole::floors(&[any], param.f)[0];
        }
    }
    wrap_after(random, field, &mut numbers, at);
    numbers
}

/// The first 53 binary digits, so that it is a double.
fn rounded(x: u128) -> u128 {
    let more = digits(x).saturating_sub(53);
    x >> more << more
}

/// Sets the four numbers after this one, or all others: each is as large as it can be for squares that add up to p at
/// most, and the last mostly one more.
fn wrap_after(random: &mut Random, field: &Field, numbers: &mut [i128], at: usize) {
    let (d, many) = (numbers.len(), 4.min(numbers.len() - 1));
    let places = (1..=many).map(|i| (at + i) % d);
    places.clone().for_each(|place| numbers[place] = 0);
    let mut left = field.p - whole::squared_norm(field, numbers);
    for place in places {
        let root = rounded(left.isqrt());
        left -= root * root;
        let more = place == (at + many) % d && !random.once_in(4);
        numbers[place] = signed(random, root as i128 + i128::from(more));
    }
}

/// Results at the test bound. Over Field64 its square is small modulo p; over Field128 other numbers bring v down, or
/// the bound is below n.
fn at_test_bound(random: &mut Random, param: &mut Param) -> Vec<i128> {
    let (field, d) = (param.field, param.d as usize);
    let wraps = field.is_wide() && d > 2 && random.once_in(2);
    if !field.is_wide() {
        param.n = random.between(1 << 28, field.norm_bound.1);
    } else if !wraps {
        param.alpha = [1, random.between(3, ALPHA.1) as u16];
    }
    let mut numbers: Vec<i128> = (0..d).map(|_| if random.once_in(4) { small(random, 1) } else { 0 }).collect();
    let (at, edge) = (random.index(d), Sizes::of(param).test_bound as i128 + small(random, 2));
    numbers[at] = signed(random, edge);
    if wraps {
        wrap_after(random, field, &mut numbers, at);
    }
    numbers
}

/// A double that gives y, or nearly so where y is long.
fn double(random: &mut Random, y: i128, f: u64) -> u64 {
    let way = random.below(4);
    if y == 0 && way == 0 {
        return random.pick(&[0, SIGN]);
    }
    let any = random.unit();
    let part = if way == 0 { random.pick(&[0.5, 0.25, any]) } else { 0.0 };
    ((y as f64 + part) / (1u64 << f) as f64).to_bits()
}

pub fn gradient(random: &mut Random, numbers: &[i128], f: u64) -> Vec<u64> {
    numbers.iter().map(|y| double(random, *y, f)).collect()
}

pub fn any_stream(random: &mut Random, len: usize) -> Vec<u8> {
    if random.once_in(8) {
        return vec![random.pick(&[0x00, 0xff, 0x1b, 0x55, 0xaa, 0xe4]); len];
    }
    random.bytes(len)
}

/// A pair of bits that mostly passes over a number beyond the test bound, and less so where a test may miss.
fn pair(random: &mut Random, number: &i128, sizes: &Sizes, param: &Param) -> u8 {
    if !sizes.in_range(*number) && !random.once_in(if param.lets_miss() { 3 } else { 16 }) {
        random.pick(&[1, 2])
    } else {
        random.below(4) as u8
    }
}

/// Where there are numbers beyond the test bound, most streams pass over them.
pub fn stream(random: &mut Random, numbers: &[i128], sizes: &Sizes, param: &Param) -> Vec<u8> {
    if random.once_in(4) || numbers.iter().all(|x| sizes.in_range(*x)) {
        return any_stream(random, sizes.stream);
    }
    let mut stream = Vec::with_capacity(sizes.stream);
    for _ in 0..param.t {
        for four in numbers.chunks(4) {
            let mut byte = random.next() as u8;
            for (i, number) in four.iter().enumerate() {
                byte = byte & !(3 << (2 * i)) | pair(random, number, sizes, param) << (2 * i);
            }
            stream.push(byte);
        }
    }
    stream
}

/// A stream for the sampler: of its values as many are to be skipped as may be or one more or less, few, or any.
pub fn values(random: &mut Random, sizes: &Sizes) -> Vec<u8> {
    let mut values = random.words(draws_len(sizes) / 8);
    let skipped = match random.below(4) {
        0 => random.index(values.len() + 1),
        1 => random.index(4),
        _ => MORE_DRAWS - 1 + random.index(3),
    };
    for value in &mut values[..skipped] {
        let any = random.between(P64, u64::MAX);
        *value = random.pick(&[P64, P64, P64 + 1, u64::MAX, any]);
    }
    if !random.once_in(4) {
        (1..values.len()).for_each(|place| values.swap(place, random.index(place + 1)));
    }
    if random.once_in(4) {
        let at = random.index(values.len());
        values[at] = random.pick(&[0, 1, P64 - 1]);
    }
    values.iter().flat_map(|x| x.to_le_bytes()).collect()
}

fn changed(random: &mut Random, field: &Field, x: u128) -> u128 {
    let any = elements::element(random, field);
    random.pick(&[0, 1, field.sum(x, 1), field.difference(x, 1), field.p - 1, any])
}

/// A full vector: of a report, with a few elements changed, one of two shares, of zeros and ones, or any.
pub fn full(random: &mut Random, param: &Param) -> Vec<u128> {
    let (field, sizes) = (param.field, Sizes::of(param));
    let way = random.below(16);
    match way {
        0 => return elements::row(random, field, sizes.full),
        1 => {
            let checked = param.d as usize..sizes.measurement;
            let mut full = elements::row(random, field, sizes.full);
            full[checked].iter_mut().for_each(|x| *x = random.below(2).into());
            return full;
        }
        2 => return vec![random.pick(&[0, 0, 1, field.p - 1]); sizes.full],
        _ => (),
    }
    let numbers = in_ball(random, param.n, param.d as usize);
    let mut full = whole::full_vector(param, &numbers, &any_stream(random, sizes.stream));
    if way == 3 {
        full.iter_mut().for_each(|x| *x = field.difference(*x, elements::element(random, field)));
    } else if way < 10 {
        for _ in 0..random.between(1, 2) {
            let at = random.index(full.len());
            full[at] = changed(random, field, full[at]);
        }
    }
    full
}
