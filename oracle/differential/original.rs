//! The same calls of the original. What docs/PINE.md refuses is not put to it. With another multiplier than its own it is
//! given the test bound that the driver works out, and where tests missed, a stream with which they do not; a report that
//! is cut with such tests the driver works out. A seed is put to it with its own XOF.

use crate::{
    case::{Call, Case, Row},
    field::{Field, FIELD128, FIELD64},
    param::{Param, Sizes, STANDARD},
    seed::{self, SEED_LEN},
    shares::Brought,
    whole,
};
use pine_oracle::{
    cut::{cut, UpToProofs},
    fields::Elem,
    pine::{flp::PineType, opened, Pine},
    xofs::{choose_stream, ChosenXof, WatchedXof},
};
use prio_draft09::{
    field::{Field128, Field64},
    flp::{FlpError, Gadget, Type},
    vdaf::{
        xof::{IntoFieldVec, Seed, Xof, XofTurboShake128},
        Aggregatable, Aggregator, Collector,
    },
};
use std::{
    any::Any,
    cell::{Cell, RefCell},
    error::Error,
    panic::{catch_unwind, set_hook, AssertUnwindSafe},
    rc::Rc,
};

/// The values that a call gives back, and the rows that it writes; an element by its words.
pub struct Given {
    pub values: Vec<u64>,
    pub rows: Vec<Vec<u64>>,
}

type Outcome<G> = Result<G, Box<dyn Error>>;

fn values(values: Vec<u64>) -> Outcome<Given> {
    Ok(Given { values, rows: vec![] })
}

fn rows(rows: Vec<Vec<u64>>) -> Outcome<Given> {
    Ok(Given { values: vec![], rows })
}

/// An element of a field, as the original has it.
trait Theirs: Elem {
    const FIELD: &'static Field;

    fn of(x: u128) -> Self;
    fn number(self) -> u128;
}

impl Theirs for Field64 {
    const FIELD: &'static Field = &FIELD64;

    fn of(x: u128) -> Field64 {
        Field64::from(x as u64)
    }

    fn number(self) -> u128 {
        u64::from(self).into()
    }
}

impl Theirs for Field128 {
    const FIELD: &'static Field = &FIELD128;

    fn of(x: u128) -> Field128 {
        Field128::from(x)
    }

    fn number(self) -> u128 {
        u128::from(self)
    }
}

fn fields<F: Theirs>(row: &Row) -> Vec<F> {
    F::FIELD.elements(row.elements()).into_iter().map(F::of).collect()
}

fn words<F: Theirs>(row: &[F]) -> Vec<u64> {
    F::FIELD.row(&row.iter().map(|x| x.number()).collect::<Vec<u128>>())
}

/// The bytes of the tests: a stream, or 16 that are a seed.
#[derive(Clone, Copy)]
enum Tests<'a> {
    Stream(&'a [u8]),
    Seed(&'a [u8]),
}

impl Tests<'_> {
    fn stream(self, len: usize) -> Vec<u8> {
        match self {
            Tests::Stream(stream) => stream.to_vec(),
            Tests::Seed(bytes) => seed::stream(bytes, len),
        }
    }
}

/// The chosen bytes are handed out whatever the seed.
fn choose(stream: &[u8]) -> Seed<16> {
    choose_stream(stream.to_vec());
    seed::seed(&[7; 16])
}

fn run_wr_tests<F: Theirs>(t: &PineType<F>, gradient: &[F], tests: Tests) -> Vec<F> {
    match tests {
        Tests::Stream(stream) => opened::run_wr_tests::<F, ChosenXof>(t, gradient, &choose(stream)),
        Tests::Seed(bytes) => opened::run_wr_tests::<F, XofTurboShake128>(t, gradient, &seed::seed(bytes)),
    }
}

/// The measurement and the results.
fn encode<F: Theirs>(t: &PineType<F>, gradient: &[u64], tests: Tests) -> Outcome<(Vec<F>, Vec<F>)> {
    let gradient = doubles(gradient).into_iter();
    Ok(match tests {
        Tests::Stream(stream) => t.encode_with_wr_joint_rand::<ChosenXof, 16>(gradient, &choose(stream))?,
        Tests::Seed(bytes) => t.encode_with_wr_joint_rand::<XofTurboShake128, 16>(gradient, &seed::seed(bytes))?,
    })
}

/// Four pairs of bits with which a test adds nothing.
const NOTHING: u8 = 0x55;

/// The original refuses where a test missed. So it is asked with such tests adding nothing; in the measurement that it
/// gives they become zeros, and the first K others have the success bits.
fn encode_with_misses<F: Theirs>(t: &PineType<F>, param: &Param, gradient: &[u64], tests: Tests) -> Outcome<Given> {
    let (sizes, d) = (Sizes::of(param), gradient.len());
    let mut passing = tests.stream(sizes.stream);
    let in_range: Vec<bool> = whole::in_range(param, &whole::floors(gradient, param.f), &passing).collect();
    if !in_range.contains(&false) {
        let (measurement, results) = encode(t, gradient, tests)?;
        return rows(vec![words(&measurement), words(&results)]);
    }
    for (bytes, in_range) in passing.chunks_mut(sizes.per_test).zip(&in_range) {
        if !in_range {
            bytes.fill(NOTHING);
        }
    }
    let (mut measurement, _) = encode(t, gradient, Tests::Stream(&passing))?;
    let mut successes = 0;
    for (test, in_range) in measurement[d + 2 * sizes.bits..].chunks_mut(sizes.test_bits + 1).zip(&in_range) {
        if *in_range {
            test[sizes.test_bits] = if successes < param.k { F::one() } else { F::zero() };
            successes += 1;
        } else {
            test.fill(F::zero());
        }
    }
    let results = run_wr_tests(t, &measurement[..d], tests);
    rows(vec![words(&measurement), words(&results)])
}

fn octets(bytes: &[u8]) -> Vec<u64> {
    bytes.iter().map(|x| u64::from(*x)).collect()
}

/// Five or seven seeds.
fn seeds_of<const MANY: usize>(bytes: &[u8]) -> [[u8; SEED_LEN]; MANY] {
    std::array::from_fn(|i| bytes[SEED_LEN * i..][..SEED_LEN].try_into().unwrap())
}

fn doubles(gradient: &[u64]) -> Vec<f64> {
    gradient.iter().map(|x| f64::from_bits(*x)).collect()
}

/// Of the original, but where a test missed.
fn cut_with_misses(param: &Param, gradient: &[u64], brought: Brought) -> Outcome<Given> {
    let (sizes, numbers) = (Sizes::of(param), whole::floors(gradient, param.f));
    let stream = seed::stream(&brought.wr_seed(param, &numbers), sizes.stream);
    if whole::in_range(param, &numbers, &stream).any(|in_range| !in_range) {
        let (leader, helper, seeds) = brought.cut(param, &numbers);
        return rows(vec![leader, helper, octets(&seeds)]);
    }
    let pine: Pine<Field64, UpToProofs<WatchedXof>, 16> = opened::new(param.inputs(), bound(param))?;
    let given = cut(&pine, &doubles(gradient), brought.nonce.try_into()?, seeds_of(brought.five))?;
    let seeds = [given.wr_joint_rand_seed, given.vf_joint_rand_seed].concat();
    rows(vec![words(&given.leader), words(&given.helper), octets(&seeds)])
}

/// It asks for 32 values at a time, and skips those that are added here.
fn sample(stream: &[u8], len: usize) -> Outcome<Given> {
    let mut stream = stream.to_vec();
    stream.resize(stream.len().next_multiple_of(32 * 8) + 32 * 8, 0xff);
    choose_stream(stream);
    let share: Vec<Field64> = ChosenXof::seed_stream(&seed::seed(&[7; SEED_LEN]), &[], &[]).into_field_vec(len);
    rows(vec![words(&share)])
}

/// The whole report, with its proofs: both servers accept it, and find the rows that the call wrote. Of a report with a
/// test that missed the original makes none.
pub fn prepare(case: &Case, written: &[Vec<u64>]) -> Result<bool, String> {
    let [Row::Doubles(gradient), Row::Bytes(nonce), Row::Bytes(five), ..] = &case.rows[..] else {
        unreachable!();
    };
    let (param, given) = (&case.param, written[2].iter().map(|x| *x as u8).collect::<Vec<u8>>());
    let (sizes, numbers) = (Sizes::of(param), whole::floors(gradient, param.f));
    let stream = seed::stream(&given[..SEED_LEN], sizes.stream);
    if whole::in_range(param, &numbers, &stream).any(|in_range| !in_range) {
        return Ok(false);
    }
    let zeros = [0; SEED_LEN];
    let [meas_share_seed_1, wr_blind_1, vf_blind_1, wr_blind_0, vf_blind_0] = seeds_of(five);
    let rand = [meas_share_seed_1, zeros, wr_blind_1, vf_blind_1, wr_blind_0, vf_blind_0, zeros];
    let pine = opened::new(param.inputs(), bound(param)).map_err(|error| error.to_string())?;
    let nonce = nonce[..].try_into().unwrap();
    let (leader, seeds, shares) = opened::prepared(&pine, &doubles(gradient), nonce, rand)
        .map_err(|error| format!("the original's servers do not accept: {error}"))?;
    let d = gradient.len();
    let is_same = words(&leader) == written[0]
        && seeds == given
        && words(&shares[0]) == written[0][..d]
        && words(&shares[1]) == written[1][..d];
    is_same.then_some(true).ok_or("the original's servers find other rows".into())
}

#[derive(Debug)]
struct Counted<F: Theirs> {
    inner: Box<dyn Gadget<F>>,
    calls: Rc<Cell<u64>>,
}

impl<F: Theirs> Gadget<F> for Counted<F> {
    fn call(&mut self, inp: &[F]) -> Result<F, FlpError> {
        self.calls.set(self.calls.get() + 1);
        self.inner.call(inp)
    }
    fn call_poly(&mut self, outp: &mut [F], inp: &[Vec<F>]) -> Result<(), FlpError> {
        self.inner.call_poly(outp, inp)
    }
    fn arity(&self) -> usize {
        self.inner.arity()
    }
    fn degree(&self) -> usize {
        self.inner.degree()
    }
    fn calls(&self) -> usize {
        self.inner.calls()
    }
    fn as_any(&mut self) -> &mut dyn Any {
        self
    }
}

fn circuit<F: Theirs>(t: &impl Type<Field = F>, shares: u128, full: &Row, joint_rand: &[F]) -> Outcome<Given> {
    let calls = Rc::new(Cell::new(0));
    let counted = |inner| Box::new(Counted { inner, calls: calls.clone() }) as Box<dyn Gadget<F>>;
    let mut gadget = t.gadget().into_iter().map(counted).collect();
    let value = t.valid(&mut gadget, &fields(full), joint_rand, shares as usize)?;
    let mut given = words(&[value]);
    given.push(calls.get());
    values(given)
}

/// Where the part begins in the vector, and its length.
fn part<F: Theirs, X>(pine: &Pine<F, X, 16>, full: &Row, which: usize) -> Outcome<Given> {
    let parts = opened::parts(pine, &fields(full)).map(|part| part.len() as u64);
    values(vec![parts[..which].iter().sum(), parts[which]])
}

fn adding<F: Theirs>(agg: &Row, share: &Row, merge: bool) -> Outcome<Given> {
    let (mut agg, share) = (opened::pine_vec(fields::<F>(agg)), opened::pine_vec(fields(share)));
    if merge {
        agg.merge(&share)?;
    } else {
        agg.accumulate(&share)?;
    }
    rows(vec![words(&opened::elements(agg))])
}

/// The original takes nothing out of an aggregate; its field has the difference.
fn taking_out<F: Theirs>(agg: &Row, share: &Row) -> Outcome<Given> {
    let left: Vec<F> = fields(agg).into_iter().zip(fields(share)).map(|(x, y): (F, F)| x - y).collect();
    rows(vec![words(&left)])
}

/// The test bound, where it is not the original's.
fn bound(param: &Param) -> Option<u64> {
    (param.alpha != STANDARD).then(|| Sizes::of(param).test_bound as u64)
}

fn answer<F: Theirs>(case: &Case) -> Outcome<Given> {
    let (number, f) = (case.number, case.param.f);
    match case.call {
        Call::F64ToField => {
            return values(words::<F>(&[opened::f64_to_field(f64::from_bits(number as u64), f)?]));
        }
        Call::FieldToF64 => return values(vec![opened::field_to_f64(F::of(number), f)?.to_bits()]),
        _ => (),
    }
    let pine: Pine<F, XofTurboShake128, 16> = opened::new(case.param.inputs(), bound(&case.param))?;
    match (case.call, &case.rows[..]) {
        (Call::CheckParam, []) => values(vec![]),
        (Call::Derive, []) => values(opened::record(&pine)),
        (Call::Encode, [Row::Doubles(gradient), Row::Bytes(stream), ..]) => {
            encode_with_misses(&pine.flp, &case.param, gradient, Tests::Stream(stream))
        }
        (Call::EncodeSeed, [Row::Doubles(gradient), Row::Bytes(seed), ..]) => {
            encode_with_misses(&pine.flp, &case.param, gradient, Tests::Seed(seed))
        }
        (Call::RunWrTests, [gradient, Row::Bytes(stream), _]) => {
            rows(vec![words(&run_wr_tests(&pine.flp, &fields(gradient), Tests::Stream(stream)))])
        }
        (Call::RunWrTestsSeed, [gradient, Row::Bytes(seed), _]) => {
            rows(vec![words(&run_wr_tests(&pine.flp, &fields(gradient), Tests::Seed(seed)))])
        }
        (Call::Cut, [Row::Doubles(gradient), Row::Bytes(nonce), Row::Bytes(five), ..]) => {
            cut_with_misses(&case.param, gradient, Brought { nonce, five })
        }
        (Call::Sample, [Row::Bytes(stream), share]) => sample(stream, share.len()),
        (Call::Valid, [full, joint_rand]) => circuit(&pine.flp, number, full, &fields(joint_rand)),
        (Call::ValidSqNormEqual, [full]) => circuit(&pine.flp_sq_norm_equal, number, full, &[]),
        (Call::GradientPart, [full]) => part(&pine, full, 0),
        (Call::CheckedPart, [full]) => part(&pine, full, 1),
        (Call::ResultsPart, [full]) => part(&pine, full, 2),
        (Call::EmptyAggregate, [_]) => rows(vec![words(&opened::elements(pine.aggregate(&(), [])?))]),
        (Call::Accumulate, [agg, share]) => adding::<F>(agg, share, false),
        (Call::Merge, [agg, other]) => adding::<F>(agg, other, true),
        (Call::Subtract | Call::Unmerge, [agg, share]) => taking_out::<F>(agg, share),
        (Call::Unshard, [left, right, _]) => {
            let aggregates = [left, right].map(|row| opened::pine_vec(fields(row)));
            rows(vec![pine.unshard(&(), aggregates, 1)?.iter().map(|x| x.to_bits()).collect()])
        }
        _ => unreachable!(),
    }
}

thread_local! {
    static PANIC: RefCell<String> = const { RefCell::new(String::new()) };
}

/// Keeps what a panic says, instead of printing it.
pub fn keep_panics() {
    set_hook(Box::new(|info| PANIC.set(info.to_string())));
}

/// What it gives, or the error or panic.
pub fn call(case: &Case) -> Result<Given, String> {
    let answer = if case.field().is_wide() { answer::<Field128> } else { answer::<Field64> };
    match catch_unwind(AssertUnwindSafe(|| answer(case))) {
        Ok(outcome) => outcome.map_err(|error| format!("error: {error}")),
        Err(_) => Err(PANIC.take()),
    }
}
