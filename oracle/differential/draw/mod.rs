//! Draws a case: a sound one, and in two of five cases some damage to it.

mod damage;
mod elements;
mod history;
mod params;
mod reports;
mod singles;

use crate::{
    case::{Call, Case, Row},
    field::Field,
    param::{Param, Sizes},
    random::Random,
    seed::SEED_LEN,
    shares::{FIVE_LEN, GIVEN_LEN, NONCE_LEN},
};
pub use elements::element;
pub use history::Calls;

fn with_rows(call: Call, param: Param, rows: Vec<Row>) -> Case {
    Case { call, param, number: 0, rows }
}

fn read(field: &Field, elements: &[u128]) -> Row {
    Row::Elements(field.row(elements))
}

/// Of so many words or doubles.
fn written(random: &mut Random, len: usize) -> Row {
    Row::Written(random.words(len))
}

/// A seed, where the call takes one, or this stream.
fn bytes(random: &mut Random, call: Call, stream: impl FnOnce(&mut Random) -> Vec<u8>) -> Row {
    Row::Bytes(match call {
        Call::EncodeSeed | Call::RunWrTestsSeed => reports::any_stream(random, SEED_LEN),
        _ => stream(random),
    })
}

fn encode(random: &mut Random, field: &'static Field, call: Call) -> Case {
    let mut param = params::for_rows(random, field);
    let numbers = reports::numbers(random, &mut param);
    let gradient = reports::gradient(random, &numbers, param.f);
    let sizes = Sizes::of(&param);
    let rows = vec![
        Row::Doubles(gradient),
        bytes(random, call, |random| reports::stream(random, &numbers, &sizes, &param)),
        written(random, field.words * sizes.measurement),
        written(random, field.words * param.t as usize),
    ];
    with_rows(call, param, rows)
}

fn cut(random: &mut Random, field: &'static Field) -> Case {
    let mut param = params::for_rows(random, field);
    let numbers = reports::numbers(random, &mut param);
    let gradient = reports::gradient(random, &numbers, param.f);
    let len = Sizes::of(&param).measurement;
    let rows = vec![
        Row::Doubles(gradient),
        Row::Bytes(reports::any_stream(random, NONCE_LEN)),
        Row::Bytes(reports::any_stream(random, FIVE_LEN)),
        written(random, len),
        written(random, len),
        Row::WrittenBytes(random.bytes(GIVEN_LEN)),
    ];
    with_rows(Call::Cut, param, rows)
}

fn sample(random: &mut Random, field: &'static Field) -> Case {
    let param = params::for_rows(random, field);
    let sizes = Sizes::of(&param);
    let rows = vec![Row::Bytes(reports::values(random, &sizes)), written(random, sizes.measurement)];
    with_rows(Call::Sample, param, rows)
}

fn run_wr_tests(random: &mut Random, field: &'static Field, call: Call) -> Case {
    let param = params::for_rows(random, field);
    let rows = vec![
        read(field, &elements::row(random, field, param.d as usize)),
        bytes(random, call, |random| reports::any_stream(random, Sizes::of(&param).stream)),
        written(random, field.words * param.t as usize),
    ];
    with_rows(call, param, rows)
}

fn circuit(random: &mut Random, field: &'static Field, call: Call) -> Case {
    let param = params::for_rows(random, field);
    let mut rows = vec![read(field, &reports::full(random, &param))];
    if call == Call::Valid {
        rows.push(read(field, &[0; 3].map(|_| elements::joint_rand(random, field))));
    }
    let number =
        if random.once_in(8) { random.between(1, 255) } else { random.pick(&[1, 1, 1, 2, 2, 3, 4, 128, 254, 255]) };
    Case { number: number.into(), ..with_rows(call, param, rows) }
}

fn part(random: &mut Random, field: &'static Field, call: Call) -> Case {
    let param = params::for_rows(random, field);
    let full = elements::row(random, field, Sizes::of(&param).full);
    with_rows(call, param, vec![read(field, &full)])
}

fn empty_aggregate(random: &mut Random, field: &'static Field) -> Case {
    let param = params::for_rows(random, field);
    let row = written(random, field.words * param.d as usize);
    with_rows(Call::EmptyAggregate, param, vec![row])
}

/// A row whose sums with the first, or differences where it is taken out, are often such that matter.
fn beside(random: &mut Random, field: &Field, call: Call, left: &[u128]) -> Vec<u128> {
    let mut right = if random.once_in(16) { left.to_vec() } else { elements::completed(random, field, left) };
    if matches!(call, Call::Subtract | Call::Unmerge) && !random.once_in(4) {
        right.iter_mut().for_each(|x| *x = field.negated(*x));
    }
    right
}

/// Or taking out.
fn adding(random: &mut Random, field: &'static Field, call: Call) -> Case {
    let param = params::for_rows(random, field);
    let agg = elements::row(random, field, param.d as usize);
    let share = beside(random, field, call, &agg);
    with_rows(call, param, vec![Row::Aggregate(field.row(&agg)), read(field, &share)])
}

/// Two aggregates with these sums, which are sometimes equal.
fn halves(random: &mut Random, field: &Field, totals: &[u128]) -> [Vec<u128>; 2] {
    let left = if random.once_in(16) {
        totals.iter().map(|x| field.halved(*x)).collect()
    } else {
        elements::row(random, field, totals.len())
    };
    let right = elements::lacking(field, totals, &left);
    [left, right]
}

fn unshard(random: &mut Random, field: &'static Field) -> Case {
    let param = params::for_rows(random, field);
    let mut totals = elements::totals(random, field, param.d as usize);
    if field.is_wide() && random.once_in(8) {
        for _ in 0..random.between(1, 2) {
            totals[random.index(param.d as usize)] = elements::too_large(random, field);
        }
    }
    let [left, right] = halves(random, field, &totals).map(|row| read(field, &row));
    with_rows(Call::Unshard, param, vec![left, right, written(random, totals.len())])
}

pub fn case(random: &mut Random, field: &'static Field, call: Call) -> Case {
    let mut case = match call {
        Call::CheckParam | Call::Derive => with_rows(call, params::any(random, field), vec![]),
        Call::F64ToField => return singles::f64_to_field(random, field),
        Call::FieldToF64 => return singles::field_to_f64(random, field),
        Call::Encode | Call::EncodeSeed => encode(random, field, call),
        Call::RunWrTests | Call::RunWrTestsSeed => run_wr_tests(random, field, call),
        Call::Cut => cut(random, field),
        Call::Sample => sample(random, field),
        Call::Valid | Call::ValidSqNormEqual => circuit(random, field, call),
        Call::GradientPart | Call::CheckedPart | Call::ResultsPart => part(random, field, call),
        Call::EmptyAggregate => empty_aggregate(random, field),
        Call::Accumulate | Call::Merge | Call::Subtract | Call::Unmerge => adding(random, field, call),
        Call::Unshard => unshard(random, field),
    };
    for _ in 0..random.pick(&[0, 0, 0, 0, 0, 0, 1, 1, 2, 3]) {
        damage::once(random, &mut case);
    }
    case
}
