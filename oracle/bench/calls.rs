//! The calls of libpine_c.a, include/pine.h, beside the original's and those written by hand.

use crate::{
    by_hand::Number,
    by_hand_calls::{self as by_hand, Outcome, Param},
    field::{fields, numbers, random_row, width, words, words_of, Adding, Answer, ByHand, Circuit, Field, Words},
    row,
    stream::{give, Given},
    way, Random, Row, Title, Way, Ways, FRAC_BITS, SCALE,
};
use pine_oracle::{
    cut::{up_to_proofs, UpToProofs},
    fields::pine,
    pine::{
        opened::{derived, elements, pine_vec, run_wr_tests, to_f64, to_field},
        vdaf::PineVec,
        Pine,
    },
    xofs::WatchedXof,
};
use prio_draft09::{
    codec::Decode,
    field::{Field128, Field64},
    flp::{FlpError, Gadget, Type},
    vdaf::{
        xof::{IntoFieldVec, Seed, Xof, XofTurboShake128},
        Aggregatable, Aggregator, Collector,
    },
};
use rand::RngCore;
use std::{any::Any, cell::Cell, rc::Rc};

#[repr(C)]
struct Coordinate {
    answer: Answer,
    element: u64,
}

#[repr(C)]
struct Decoded {
    answer: Answer,
    value: f64,
}

#[repr(C)]
struct Part {
    answer: Answer,
    start: u64,
    len: u64,
}

/// The record, the stream's length and the lengths of both circuits. The third is the bits of a double, the tenth a byte
/// and what fills its word up.
#[repr(C)]
struct Derived {
    answer: Answer,
    numbers: [u64; 29],
}

#[link(name = "pine_c", kind = "static")]
extern "C" {
    fn pine_derive(param: Param) -> Derived;
    fn pine_f64_to_field(x: f64, frac_bits: u64) -> Coordinate;
    fn pine_field_to_f64(y: u64, frac_bits: u64) -> Decoded;
    fn pine_encode_with_wr_joint_rand_seed(
        param: Param,
        gradient: *const f64,
        gradient_len: usize,
        seed: *const u8,
        seed_len: usize,
        measurement: *mut u64,
        measurement_len: usize,
        results: *mut u64,
        results_len: usize,
    ) -> Answer;
    fn pine_run_wr_tests_seed(
        param: Param,
        gradient: *const u64,
        gradient_len: usize,
        seed: *const u8,
        seed_len: usize,
        results: *mut u64,
        results_len: usize,
    ) -> Answer;
    fn pine_cut(
        param: Param,
        gradient: *const f64,
        gradient_len: usize,
        nonce: *const u8,
        nonce_len: usize,
        seeds: *const u8,
        seeds_len: usize,
        leader: *mut u64,
        leader_len: usize,
        helper: *mut u64,
        helper_len: usize,
        given: *mut u8,
        given_len: usize,
    ) -> Answer;
    fn pine_sample(param: Param, stream: *const u8, stream_len: usize, share: *mut u64, share_len: usize) -> Answer;
    fn pine_gradient_part(param: Param, full: *const u64, full_len: usize) -> Part;
    fn pine_checked_part(param: Param, full: *const u64, full_len: usize) -> Part;
    fn pine_results_part(param: Param, full: *const u64, full_len: usize) -> Part;
    fn pine_empty_aggregate(param: Param, row: *mut u64, row_len: usize) -> Answer;
    fn pine_merge(param: Param, agg: *mut u64, agg_len: usize, other: *const u64, other_len: usize) -> Answer;
    fn pine_subtract(param: Param, agg: *mut u64, agg_len: usize, share: *const u64, share_len: usize) -> Answer;
}

const ACCEPTED: Answer = Answer { number: 0, place: 0 };

const DIMENSIONS: [usize; 5] = [16, 256, 1000, 4096, 65536];
const TESTS: [usize; 4] = [1, 10, 100, 256];

/// Where a call costs more than its coordinates.
const SMALL_DIMENSIONS: [usize; 2] = [1, 4];
const SMALL_TESTS: [usize; 3] = [1, 4, 10];

/// Where the tests' bytes come of a seed.
const SEED_DIMENSIONS: [usize; 3] = [16, 1000, 65536];
const SEED_TESTS: [usize; 3] = [1, 10, 100];

/// Where a row names no T, and where it is of a share.
const USUAL_TESTS: usize = 100;
const USUAL_DIMENSIONS: [usize; 2] = [1000, 65536];

const NORM_BOUND: u64 = 1 << 20;
/// The bits of its square, and of a test's result.
const SQ_NORM_BITS: usize = 41;
const WR_TEST_BITS: usize = 25;

fn checked_len(t: usize) -> usize {
    2 * SQ_NORM_BITS + (1 + WR_TEST_BITS) * t
}

/// The chunk lengths of the two circuits: one, and near the square root of the elements taken.
fn chunks(d: usize, t: usize) -> [(usize, usize); 2] {
    let root = checked_len(t).isqrt();
    [(1, 1), (root - root % 10, d.isqrt())]
}

/// As the original has it: its multiplier, every test in range, no bound of the true norm.
fn standard(inputs: [u64; 7]) -> Param {
    Param(inputs, [87, 10], [0, 0])
}

fn param(d: usize, (c, e): (usize, usize), t: usize) -> Param {
    standard([NORM_BOUND, d as u64, FRAC_BITS, c as u64, e as u64, t as u64, t as u64])
}

fn title<F: Field>(name: &str, d: usize, of: &'static str, bytes: usize) -> Title {
    Title::new(F::KIND, &format!("{name}{}", F::SUFFIX), d, of, bytes)
}

/// The bytes of a row of so many elements.
fn bytes<F: Field>(elements: usize) -> usize {
    8 * width::<F>() * elements
}

/// A row of so many elements that is to be written.
fn unwritten<F: Field>(elements: usize) -> Vec<u64> {
    vec![1; width::<F>() * elements]
}

type Original<F> = Pine<F, XofTurboShake128, 16>;

fn new<F: Field>(param: Param) -> Original<F> {
    pine(param.0).unwrap()
}

/// As the calls of the archive answer.
fn answer<T>(outcome: &Outcome<T>) -> Answer {
    match outcome {
        Ok(_) => ACCEPTED,
        Err(refusal) => Answer { number: refusal.number, place: refusal.place },
    }
}

fn accepted(answer: Answer) {
    assert_eq!(answer, ACCEPTED);
}

fn seed_of(bytes: &[u8]) -> Seed<16> {
    Seed::get_decoded(bytes).unwrap()
}

/// Whatever the seed, the original is given the stream.
fn seed() -> Seed<16> {
    seed_of(&[7; 16])
}

/// By hand, what a seed makes comes from the original's XOF.
fn xof(seed: &[u8], usage: u8, binder: &[u8], len: usize) -> Vec<u8> {
    let dst = [1, 0xff, 0xff, 0xff, 0xff, 0, usage];
    let mut output = vec![0; len];
    XofTurboShake128::seed_stream(&seed_of(seed), &dst, binder).fill_bytes(&mut output);
    output
}

fn stream_of(seed: &[u8], param: Param) -> Vec<u8> {
    let [_, d, _, _, _, t, _] = param.0.map(|x| x as usize);
    xof(seed, 8, &[], d.div_ceil(4) * t)
}

// Encoding and the tests

struct Report {
    param: Param,
    gradient: Vec<f64>,
    stream: Vec<u8>,
}

fn report(random: &mut Random, param: Param) -> Report {
    let [_, d, _, _, _, t, _] = param.0.map(|x| x as usize);
    Report { param, gradient: random.gradient(d), stream: random.bytes(d.div_ceil(4) * t) }
}

/// A report and the rows for its encoding: of words, or by hand of numbers.
struct Encoding<N = u64> {
    report: Report,
    measurement: Vec<N>,
    results: Vec<N>,
}

fn encoding<F: Field>(s: &Report) -> Encoding {
    let [_, d, _, _, _, t, _] = s.param.0.map(|x| x as usize);
    let report = Report { param: s.param, gradient: s.gradient.clone(), stream: s.stream.clone() };
    Encoding { report, measurement: unwritten::<F>(d + checked_len(t)), results: unwritten::<F>(t) }
}

fn encoding_by_hand<F: Field>(s: &Report) -> Encoding<ByHand<F>> {
    let Encoding { report, measurement, results } = encoding::<F>(s);
    Encoding { report, measurement: numbers::<F>(&measurement), results: numbers::<F>(&results) }
}

fn encode_by_hand<N: Number>(w: &mut Encoding<N>) -> Answer {
    let Report { param, gradient, stream } = &w.report;
    answer(&by_hand::encode(*param, gradient, stream, &mut w.measurement, &mut w.results))
}

fn encoded_by_hand<N: Number>(w: Encoding<N>, answer: Answer) -> Vec<u64> {
    accepted(answer);
    words_of(w.measurement.into_iter().chain(w.results))
}

fn encode_ours<F: Field>(w: &mut Encoding) -> Answer {
    let Report { param, gradient, stream } = &w.report;
    unsafe {
        (F::CALLS.encode)(
            *param,
            gradient.as_ptr(),
            gradient.len(),
            stream.as_ptr(),
            stream.len(),
            w.measurement.as_mut_ptr(),
            w.measurement.len(),
            w.results.as_mut_ptr(),
            w.results.len(),
        )
    }
}

fn encoded(w: Encoding, answer: Answer) -> Vec<u64> {
    accepted(answer);
    [w.measurement, w.results].concat()
}

fn encode_title<F: Field>(d: usize, t: usize) -> Title {
    let bytes = 8 * d + d.div_ceil(4) * t + bytes::<F>(d + checked_len(t)) + bytes::<F>(t);
    Title { tests: Some(t), ..title::<F>("encode", d, "coordinate", bytes) }
}

/// With the second rule of the tests, or the switch on, which the original does not have.
fn encode_with(d: usize, t: usize, note: &str, choices: [u8; 2]) -> Row {
    let ways = Ways {
        original: None,
        ours: way(encoding::<Field64>, encode_ours::<Field64>, encoded),
        by_hand: Some(way(encoding::<Field64>, encode_by_hand, encoded)),
    };
    let made = move |r: &mut Random| {
        let Param(inputs, alpha, _) = param(d, (1, 1), t);
        report(r, Param(inputs, alpha, choices))
    };
    row(Title { note: note.into(), ..encode_title::<Field64>(d, t) }, made, ways)
}

/// Ready for the original's.
fn original_encoding<F: Field>(s: &Report) -> (Original<F>, Vec<f64>) {
    give(&s.stream);
    (new(s.param), s.gradient.clone())
}

fn encode_original<F: Field>((pine, gradient): &mut (Original<F>, Vec<f64>)) -> (Vec<F>, Vec<F>) {
    pine.flp.encode_with_wr_joint_rand::<Given, 16>(gradient.iter().copied(), &seed()).unwrap()
}

fn encode<F: Field>(d: usize, t: usize) -> Row {
    let original = way(original_encoding::<F>, encode_original, |_, (measurement, results)| {
        words(&[measurement, results].concat())
    });
    row(
        encode_title::<F>(d, t),
        move |r| report(r, param(d, (1, 1), t)),
        Ways {
            original: Some(original),
            ours: way(encoding::<F>, encode_ours::<F>, encoded),
            by_hand: Some(way(encoding_by_hand::<F>, encode_by_hand, encoded_by_hand)),
        },
    )
}

fn seeded(random: &mut Random, param: Param) -> Report {
    Report { stream: random.bytes(16), ..report(random, param) }
}

/// The stream of the report is a seed.
fn encode_seed_ours(w: &mut Encoding) -> Answer {
    let Report { param, gradient, stream: seed } = &w.report;
    unsafe {
        pine_encode_with_wr_joint_rand_seed(
            *param,
            gradient.as_ptr(),
            gradient.len(),
            seed.as_ptr(),
            seed.len(),
            w.measurement.as_mut_ptr(),
            w.measurement.len(),
            w.results.as_mut_ptr(),
            w.results.len(),
        )
    }
}

fn encode_seed_by_hand(w: &mut Encoding) -> Answer {
    let Report { param, gradient, stream: seed } = &w.report;
    let stream = stream_of(seed, *param);
    answer(&by_hand::encode(*param, gradient, &stream, &mut w.measurement, &mut w.results))
}

fn encode_seed(d: usize, t: usize) -> Row {
    let original = way(
        |s: &Report| (new::<Field64>(s.param), s.gradient.clone(), seed_of(&s.stream)),
        |(pine, gradient, seed)| {
            pine.flp.encode_with_wr_joint_rand::<XofTurboShake128, 16>(gradient.iter().copied(), seed).unwrap()
        },
        |_, (measurement, results)| words(&[measurement, results].concat()),
    );
    row(
        Title { name: "encode, seed".into(), ..encode_title::<Field64>(d, t) },
        move |r| seeded(r, param(d, (1, 1), t)),
        Ways {
            original: Some(original),
            ours: way(encoding::<Field64>, encode_seed_ours, encoded),
            by_hand: Some(way(encoding::<Field64>, encode_seed_by_hand, encoded)),
        },
    )
}

#[derive(Clone)]
struct Tests<N = u64> {
    param: Param,
    gradient: Vec<N>,
    stream: Vec<u8>,
    results: Vec<N>,
}

/// The tests of an encoded gradient, or of a share of one.
fn fresh_tests<F: Field>(random: &mut Random, param: Param, share: bool) -> Tests {
    let report = report(random, param);
    let d = report.gradient.len();
    let gradient =
        if share { random_row::<F>(random, d) } else { full_vector::<F>(&report)[..width::<F>() * d].to_vec() };
    Tests { param, gradient, stream: report.stream, results: unwritten::<F>(param.0[5] as usize) }
}

fn tests_ours<F: Field>(w: &mut Tests) -> Answer {
    unsafe {
        (F::CALLS.run_wr_tests)(
            w.param,
            w.gradient.as_ptr(),
            w.gradient.len(),
            w.stream.as_ptr(),
            w.stream.len(),
            w.results.as_mut_ptr(),
            w.results.len(),
        )
    }
}

fn rows_by_hand<F: Field>(s: &Tests) -> Tests<ByHand<F>> {
    let [gradient, results] = [&s.gradient, &s.results].map(|row| numbers::<F>(row));
    Tests { param: s.param, gradient, stream: s.stream.clone(), results }
}

fn tests_by_hand<N: Number>(w: &mut Tests<N>) -> Answer {
    answer(&by_hand::run_wr_tests(w.param, &w.gradient, &w.stream, &mut w.results))
}

fn results_by_hand<N: Number>(w: Tests<N>, answer: Answer) -> Vec<u64> {
    accepted(answer);
    words_of(w.results)
}

fn test_results(w: Tests, answer: Answer) -> Vec<u64> {
    accepted(answer);
    w.results
}

fn tests_title<F: Field>(d: usize, t: usize) -> Title {
    let bytes = bytes::<F>(d) + d.div_ceil(4) * t + bytes::<F>(t);
    Title { tests: Some(t), count: d * t, ..title::<F>("tests", d, "coordinate*test", bytes) }
}

fn tests<F: Field>(d: usize, t: usize, share: bool) -> Row {
    let note = if share { "a share" } else { "" }.into();
    let title = Title { note, ..tests_title::<F>(d, t) };
    let ready = |s: &Tests| {
        give(&s.stream);
        (new::<F>(s.param), fields(&s.gradient))
    };
    let original =
        way(ready, |(pine, gradient)| run_wr_tests::<F, Given>(pine, gradient, &seed()), |_, results| words(&results));
    row(
        title,
        move |r| fresh_tests::<F>(r, param(d, (1, 1), t), share),
        Ways {
            original: Some(original),
            ours: way(Tests::clone, tests_ours::<F>, test_results),
            by_hand: Some(way(rows_by_hand::<F>, tests_by_hand, results_by_hand)),
        },
    )
}

fn seeded_tests(random: &mut Random, param: Param) -> Tests {
    Tests { stream: random.bytes(16), ..fresh_tests::<Field64>(random, param, false) }
}

/// The stream is a seed.
fn tests_seed_ours(w: &mut Tests) -> Answer {
    unsafe {
        pine_run_wr_tests_seed(
            w.param,
            w.gradient.as_ptr(),
            w.gradient.len(),
            w.stream.as_ptr(),
            w.stream.len(),
            w.results.as_mut_ptr(),
            w.results.len(),
        )
    }
}

fn tests_seed_by_hand(w: &mut Tests) -> Answer {
    let stream = stream_of(&w.stream, w.param);
    answer(&by_hand::run_wr_tests(w.param, &w.gradient, &stream, &mut w.results))
}

fn tests_seed(d: usize, t: usize) -> Row {
    let original = way(
        |s: &Tests| (new::<Field64>(s.param), fields(&s.gradient), seed_of(&s.stream)),
        |(pine, gradient, seed)| run_wr_tests::<Field64, XofTurboShake128>(pine, gradient, seed),
        |_, results| words(&results),
    );
    row(
        Title { name: "tests, seed".into(), ..tests_title::<Field64>(d, t) },
        move |r| seeded_tests(r, param(d, (1, 1), t)),
        Ways {
            original: Some(original),
            ours: way(Tests::clone, tests_seed_ours, test_results),
            by_hand: Some(way(Tests::clone, tests_seed_by_hand, test_results)),
        },
    )
}

// A report, cut in two

#[derive(Clone)]
struct Cutting {
    param: Param,
    gradient: Vec<f64>,
    nonce: [u8; 16],
    seeds: [[u8; 16]; 5],
    leader: Vec<u64>,
    helper: Vec<u64>,
    given: [u8; 32],
}

fn cutting(random: &mut Random, param: Param) -> Cutting {
    let [_, d, _, _, _, t, _] = param.0.map(|x| x as usize);
    let len = d + checked_len(t);
    let mut bytes = || random.bytes(16).try_into().unwrap();
    let (nonce, seeds) = (bytes(), [0; 5].map(|_| bytes()));
    let gradient = random.gradient(d);
    Cutting { param, gradient, nonce, seeds, leader: vec![1; len], helper: vec![1; len], given: [1; 32] }
}

fn cut_ours(w: &mut Cutting) -> Answer {
    let seeds = w.seeds.as_flattened();
    unsafe {
        pine_cut(
            w.param,
            w.gradient.as_ptr(),
            w.gradient.len(),
            w.nonce.as_ptr(),
            w.nonce.len(),
            seeds.as_ptr(),
            seeds.len(),
            w.leader.as_mut_ptr(),
            w.leader.len(),
            w.helper.as_mut_ptr(),
            w.helper.len(),
            w.given.as_mut_ptr(),
            w.given.len(),
        )
    }
}

fn cut_by_hand(w: &mut Cutting) -> Answer {
    let brought = by_hand::Brought { gradient: &w.gradient, nonce: &w.nonce, seeds: w.seeds.as_flattened() };
    answer(&by_hand::cut(w.param, brought, &mut w.leader, &mut w.helper, &mut w.given, xof))
}

fn both_shares(leader: &[u64], helper: &[u64], given: &[u8]) -> Vec<u64> {
    [leader, helper, &given.iter().map(|x| u64::from(*x)).collect::<Vec<u64>>()].concat()
}

fn was_cut(w: Cutting, answer: Answer) -> Vec<u64> {
    accepted(answer);
    both_shares(&w.leader, &w.helper, &w.given)
}

/// What the original's drops at the proofs is made again, and not timed.
fn was_cut_to_proofs(w: Cutting) -> Vec<u64> {
    let pine = pine::<Field64, UpToProofs<WatchedXof>>(w.param.0).unwrap();
    let made = pine_oracle::cut::cut(&pine, &w.gradient, &w.nonce, w.seeds).unwrap();
    let given = [made.wr_joint_rand_seed, made.vf_joint_rand_seed].concat();
    both_shares(&words(&made.leader), &words(&made.helper), &given)
}

fn cut(d: usize, t: usize) -> Row {
    let original = way(
        |s: &Cutting| (pine::<Field64, UpToProofs>(s.param.0).unwrap(), s.clone()),
        |(pine, s)| up_to_proofs(pine, &s.gradient, &s.nonce, s.seeds).unwrap(),
        |(_, s), ()| was_cut_to_proofs(s),
    );
    let bytes = 8 * d + 16 + 80 + 2 * 8 * (d + checked_len(t)) + 32;
    row(
        Title { tests: Some(t), ..title::<Field64>("cut", d, "coordinate", bytes) },
        move |r| cutting(r, param(d, (1, 1), t)),
        Ways {
            original: Some(original),
            ours: way(Cutting::clone, cut_ours, was_cut),
            by_hand: Some(way(Cutting::clone, cut_by_hand, was_cut)),
        },
    )
}

#[derive(Clone)]
struct Sampling {
    param: Param,
    stream: Vec<u8>,
    share: Vec<u64>,
}

fn sampling(random: &mut Random, param: Param) -> Sampling {
    let [_, d, _, _, _, t, _] = param.0.map(|x| x as usize);
    let len = d + checked_len(t);
    Sampling { param, stream: random.bytes(8 * (len + 64)), share: vec![1; len] }
}

fn sample_ours(w: &mut Sampling) -> Answer {
    unsafe { pine_sample(w.param, w.stream.as_ptr(), w.stream.len(), w.share.as_mut_ptr(), w.share.len()) }
}

fn sample_by_hand(w: &mut Sampling) -> Answer {
    answer(&by_hand::sample(w.param, &w.stream, &mut w.share))
}

fn sample(d: usize, t: usize) -> Row {
    let sampled = |w: Sampling, answer: Answer| {
        accepted(answer);
        w.share
    };
    let len = d + checked_len(t);
    // it asks for 32 values at a time; as good as none is skipped
    let ready = |s: &Sampling| {
        give(&s.stream[..8 * s.share.len().next_multiple_of(32)]);
        s.share.len()
    };
    let original = way(
        ready,
        |len| Given::seed_stream(&seed(), &[], &[]).into_field_vec::<Field64>(*len),
        |_, share| words(&share),
    );
    let bytes = 8 * (len + 64) + 8 * len;
    row(
        Title { tests: Some(t), count: len, ..title::<Field64>("sample", d, "element", bytes) },
        move |r| sampling(r, param(d, (1, 1), t)),
        Ways {
            original: Some(original),
            ours: way(Sampling::clone, sample_ours, sampled),
            by_hand: Some(way(Sampling::clone, sample_by_hand, sampled)),
        },
    )
}

// The circuits

/// A report's measurement and results, by hand, which is faster than the original.
fn full_vector<F: Field>(report: &Report) -> Vec<u64> {
    let mut rows = encoding_by_hand::<F>(report);
    let answer = encode_by_hand(&mut rows);
    encoded_by_hand(rows, answer)
}

#[derive(Clone)]
struct Full<N = u64> {
    param: Param,
    num_shares: u64,
    full: Vec<N>,
    joint_rand: Vec<N>,
}

/// A report's full vector with num_shares 1, or a share of one with num_shares 2.
fn fresh_full<F: Field>(random: &mut Random, param: Param, num_shares: u64) -> Full {
    let report = report(random, param);
    let mut full = full_vector::<F>(&report);
    if num_shares > 1 {
        full = random_row::<F>(random, full.len() / width::<F>());
    }
    Full { param, num_shares, full, joint_rand: random_row::<F>(random, 3) }
}

fn full_len(d: usize, t: usize) -> usize {
    d + checked_len(t) + t
}

#[derive(Debug)]
struct Counted<F: Field> {
    inner: Box<dyn Gadget<F>>,
    calls: Rc<Cell<u64>>,
}

impl<F: Field> Gadget<F> for Counted<F> {
    fn call(&mut self, inp: &[F]) -> Result<F, FlpError> {
        self.calls.set(self.calls.get() + 1);
        self.inner.call(inp)
    }
    fn call_poly(&mut self, outp: &mut [F], inp: &[Vec<F>]) -> Result<(), FlpError> {
        self.inner.call_poly(outp, inp)
    }
    fn arity(&self) -> usize {
        self.inner.arity()
    }
    fn degree(&self) -> usize {
        self.inner.degree()
    }
    fn calls(&self) -> usize {
        self.inner.calls()
    }
    fn as_any(&mut self) -> &mut dyn Any {
        self
    }
}

/// What the original's circuits read.
struct OriginalFull<F: Field> {
    pine: Original<F>,
    gadgets: Vec<Box<dyn Gadget<F>>>,
    full: Vec<F>,
    joint_rand: Vec<F>,
    num_shares: usize,
}

impl<F: Field> OriginalFull<F> {
    fn valid<T: Type<Field = F>>(&mut self, circuit: fn(&Original<F>) -> &T) -> F {
        let OriginalFull { pine, gadgets, full, joint_rand, num_shares } = self;
        circuit(pine).valid(gadgets, full, joint_rand, *num_shares).unwrap()
    }

    /// The value, and the gadget calls as another run counts them, which is not timed.
    fn counted<T: Type<Field = F>>(mut self, circuit: fn(&Original<F>) -> &T, value: F) -> Vec<u64> {
        let calls = Rc::new(Cell::new(0));
        let counted = |inner| Box::new(Counted { inner, calls: calls.clone() }) as Box<dyn Gadget<F>>;
        self.gadgets = circuit(&self.pine).gadget().into_iter().map(counted).collect();
        assert_eq!(self.valid(circuit), value);
        assert!(self.num_shares > 1 || value == F::zero());
        circuit_numbers(value, calls.get())
    }
}

fn circuit_numbers<F: Field>(value: F, gadget_calls: u64) -> Vec<u64> {
    [words(&[value]), vec![gadget_calls]].concat()
}

fn original_circuit<F: Field, T: Type<Field = F> + 'static>(circuit: fn(&Original<F>) -> &T) -> Way<Full> {
    let ready = move |s: &Full| {
        let pine = new(s.param);
        let gadgets = circuit(&pine).gadget();
        let joint_rand = fields(&s.joint_rand[..width::<F>() * circuit(&pine).joint_rand_len()]);
        OriginalFull { pine, gadgets, full: fields(&s.full), joint_rand, num_shares: s.num_shares as usize }
    };
    way(ready, move |w| w.valid(circuit), move |w, value| w.counted(circuit, value))
}

fn full_by_hand<F: Field>(s: &Full) -> Full<ByHand<F>> {
    let [full, joint_rand] = [&s.full, &s.joint_rand].map(|row| numbers::<F>(row));
    Full { param: s.param, num_shares: s.num_shares, full, joint_rand }
}

fn circuit_ways<F: Field, T: Type<Field = F> + 'static>(
    circuit: fn(&Original<F>) -> &T,
    ours: fn(&mut Full) -> Circuit<Words<F>>,
    by_hand: fn(&mut Full<ByHand<F>>) -> Outcome<by_hand::Circuit<ByHand<F>>>,
) -> Ways<Full> {
    let our_numbers = |_, c: Circuit<Words<F>>| {
        accepted(c.answer);
        [c.value.as_ref(), &[c.gadget_calls]].concat()
    };
    let numbers_by_hand = |_, outcome: Outcome<by_hand::Circuit<ByHand<F>>>| {
        let (value, calls) = outcome.unwrap();
        circuit_numbers(F::from(value), calls)
    };
    Ways {
        original: Some(original_circuit(circuit)),
        ours: way(Full::clone, ours, our_numbers),
        by_hand: Some(way(full_by_hand::<F>, by_hand, numbers_by_hand)),
    }
}

fn note(chunk_len: usize, num_shares: u64) -> String {
    format!("chunks of {chunk_len}{}", if num_shares > 1 { ", a share" } else { "" })
}

fn valid<F: Field>(d: usize, t: usize, (c, e): (usize, usize), num_shares: u64) -> Row {
    let title = Title {
        tests: Some(t),
        note: note(c, num_shares),
        count: checked_len(t),
        ..title::<F>("valid", d, "checked element", bytes::<F>(full_len(d, t)))
    };
    let ways = circuit_ways::<F, _>(
        |pine| &pine.flp,
        |w| unsafe {
            let (full, joint_rand) = (&w.full, &w.joint_rand);
            (F::CALLS.valid)(w.param, w.num_shares, full.as_ptr(), full.len(), joint_rand.as_ptr(), joint_rand.len())
        },
        |w| by_hand::valid(w.param, w.num_shares, &w.full, &w.joint_rand),
    );
    row(title, move |r| fresh_full::<F>(r, param(d, (c, e), t), num_shares), ways)
}

fn valid_sq_norm_equal<F: Field>(d: usize, (c, e): (usize, usize), num_shares: u64) -> Row {
    let bytes = bytes::<F>(full_len(d, USUAL_TESTS));
    let title = Title { note: note(e, num_shares), ..title::<F>("valid_sq_norm_equal", d, "coordinate", bytes) };
    let ways = circuit_ways::<F, _>(
        |pine| &pine.flp_sq_norm_equal,
        |w| unsafe { (F::CALLS.valid_sq_norm_equal)(w.param, w.num_shares, w.full.as_ptr(), w.full.len()) },
        |w| by_hand::valid_sq_norm_equal(w.param, w.num_shares, &w.full),
    );
    row(title, move |r| fresh_full::<F>(r, param(d, (c, e), USUAL_TESTS), num_shares), ways)
}

type PartCall = unsafe extern "C" fn(Param, *const u64, usize) -> Part;

/// The first, second or third part. The original's circuits split their vector without a test.
fn part(name: &str, d: usize, call: PartCall, which: usize) -> Row {
    let elements = full_len(d, USUAL_TESTS);
    let title = Title { count: elements, ..title::<Field64>(name, d, "element of the full vector", 8 * elements) };
    let ours = way(
        Full::clone,
        move |w: &mut Full| unsafe { call(w.param, w.full.as_ptr(), w.full.len()) },
        |_, part| {
            accepted(part.answer);
            vec![part.start, part.len]
        },
    );
    let by_hand = way(
        Full::clone,
        move |w: &mut Full| by_hand::part(w.param, &w.full, which),
        |_, part| part.unwrap().map(|x| x as u64).to_vec(),
    );
    let fresh = move |r: &mut Random| fresh_full::<Field64>(r, param(d, (1, 1), USUAL_TESTS), 2);
    row(title, fresh, Ways { original: None, ours, by_hand: Some(by_hand) })
}

// Aggregates

#[derive(Clone)]
struct Two<N = u64> {
    param: Param,
    left: Vec<N>,
    right: Vec<N>,
}

fn two_by_hand<F: Field>(s: &Two) -> Two<ByHand<F>> {
    let [left, right] = [&s.left, &s.right].map(|row| numbers::<F>(row));
    Two { param: s.param, left, right }
}

fn two<F: Field>(random: &mut Random, d: usize) -> Two {
    let [left, right] = [(); 2].map(|()| random_row::<F>(random, d));
    Two { param: param(d, (1, 1), USUAL_TESTS), left, right }
}

/// Two whose sums can be decoded.
fn two_of_sums<F: Field>(random: &mut Random, d: usize) -> Two {
    let left = random_row::<F>(random, d);
    let right: Vec<F> = fields(&left).into_iter().map(|x: F| F::random_sum(random) - x).collect();
    Two { param: param(d, (1, 1), USUAL_TESTS), left, right: words(&right) }
}

fn original_two<F: Field>(s: &Two) -> [PineVec<F>; 2] {
    [&s.left, &s.right].map(|row| pine_vec(fields(row)))
}

fn left(w: Two, answer: Answer) -> Vec<u64> {
    accepted(answer);
    w.left
}

fn empty_aggregate(d: usize) -> Row {
    let original = way(
        |s: &Two| new::<Field64>(s.param),
        |pine| Aggregator::<16, 16>::aggregate(pine, &(), []).unwrap(),
        |_, row| words(&elements(row)),
    );
    let ours = way(
        Two::clone,
        |w: &mut Two| unsafe { pine_empty_aggregate(w.param, w.left.as_mut_ptr(), w.left.len()) },
        left,
    );
    let by_hand = way(Two::clone, |w: &mut Two| answer(&by_hand::empty_aggregate(w.param, &mut w.left)), left);
    let title = title::<Field64>("empty_aggregate", d, "element", 8 * d);
    row(title, move |r| two::<Field64>(r, d), Ways { original: Some(original), ours, by_hand: Some(by_hand) })
}

type AddingByHand<F> = fn(Param, &mut [ByHand<F>], &[ByHand<F>]) -> Outcome<()>;
type OriginalAdding<F> = fn(&mut PineVec<F>, &PineVec<F>);

fn original_adding<F: Field>(call: OriginalAdding<F>) -> Way<Two> {
    way(original_two, move |[agg, share]: &mut [PineVec<F>; 2]| call(agg, share), |[agg, _], ()| words(&elements(agg)))
}

fn adding<F: Field>(
    name: &str,
    d: usize,
    original: Option<OriginalAdding<F>>,
    call: Adding,
    by_hand: AddingByHand<F>,
) -> Row {
    let ours = way(
        Two::clone,
        move |w: &mut Two| unsafe { call(w.param, w.left.as_mut_ptr(), w.left.len(), w.right.as_ptr(), w.right.len()) },
        left,
    );
    let by_hand = way(
        two_by_hand::<F>,
        move |w: &mut Two<ByHand<F>>| answer(&by_hand(w.param, &mut w.left, &w.right)),
        |w, answer| {
            accepted(answer);
            words_of(w.left)
        },
    );
    let title = title::<F>(name, d, "element", bytes::<F>(2 * d));
    let original = original.map(original_adding);
    row(title, move |r| two::<F>(r, d), Ways { original, ours, by_hand: Some(by_hand) })
}

fn accumulate<F: Field>(d: usize) -> Row {
    let original: OriginalAdding<F> = |agg, share| agg.accumulate(share).unwrap();
    adding("accumulate", d, Some(original), F::CALLS.accumulate, by_hand::accumulate)
}

fn bits(row: Vec<f64>, answer: Answer) -> Vec<u64> {
    accepted(answer);
    row.iter().map(|x| x.to_bits()).collect()
}

fn unshard<F: Field>(d: usize) -> Row {
    let original = way(
        |s: &Two| (new(s.param), original_two(s).into()),
        |(pine, rows): &mut (Original<F>, Vec<PineVec<F>>)| pine.unshard(&(), std::mem::take(rows), 1).unwrap(),
        |_, decoded| bits(decoded, ACCEPTED),
    );
    let unwritten = |s: &Two| vec![1.0; s.left.len() / width::<F>()];
    let ours = way(
        move |s: &Two| (s.clone(), unwritten(s)),
        |(w, decoded)| unsafe {
            let (left, right) = (&w.left, &w.right);
            (F::CALLS.unshard)(
                w.param,
                left.as_ptr(),
                left.len(),
                right.as_ptr(),
                right.len(),
                decoded.as_mut_ptr(),
                decoded.len(),
            )
        },
        |(_, decoded), answer| bits(decoded, answer),
    );
    let by_hand = way(
        move |s| (two_by_hand::<F>(s), unwritten(s)),
        |(w, decoded)| answer(&by_hand::unshard(w.param, &w.left, &w.right, decoded)),
        |(_, decoded), answer| bits(decoded, answer),
    );
    let title = title::<F>("unshard", d, "element", bytes::<F>(2 * d) + 8 * d);
    let ways = Ways { original: Some(original), ours, by_hand: Some(by_hand) };
    row(title, move |r| two_of_sums::<F>(r, d), ways)
}

// One number, and the record

fn single(name: &str, bytes: usize) -> Title {
    Title { count: 1, ..title::<Field64>(name, 1, "call", bytes) }
}

fn f64_to_field() -> Row {
    let ours = |c: Coordinate| {
        accepted(c.answer);
        vec![c.element]
    };
    let ways = Ways {
        original: Some(way(f64::clone, |x| to_field(*x, SCALE), |_, y| vec![u64::from(y.unwrap())])),
        ours: way(f64::clone, |x| unsafe { pine_f64_to_field(*x, FRAC_BITS) }, move |_, c| ours(c)),
        by_hand: Some(way(f64::clone, |x| by_hand::f64_to_field(*x, FRAC_BITS), |_, y| vec![y.unwrap()])),
    };
    row(single("f64_to_field", 16), |r| r.unit() * 2.0 - 1.0, ways)
}

fn field_to_f64() -> Row {
    let ours = |c: Decoded| {
        accepted(c.answer);
        vec![c.value.to_bits()]
    };
    let original = |y: &u64| Field64::from(*y);
    let ways = Ways {
        original: Some(way(original, |y| to_f64(*y, SCALE), |_, x| vec![x.unwrap().to_bits()])),
        ours: way(u64::clone, |y| unsafe { pine_field_to_f64(*y, FRAC_BITS) }, move |_, c| ours(c)),
        by_hand: Some(way(u64::clone, |y| by_hand::field_to_f64(*y, FRAC_BITS), |_, x| vec![x.unwrap().to_bits()])),
    };
    row(single("field_to_f64", 16), Random::element::<u64>, ways)
}

fn any_param(random: &mut Random) -> Param {
    let mut up_to = |limit: u64| 1 + random.next() % limit;
    let (n, d, f, c, e, t) = (up_to(3_037_000_499), up_to(65536), up_to(30), up_to(65536), up_to(65536), up_to(256));
    standard([n, d, f, c, e, t, up_to(t)])
}

fn derive() -> Row {
    let ways = Ways {
        original: Some(way(|s: &Param| s.0, |inputs| derived(*inputs), |_, numbers| numbers.to_vec())),
        ours: way(
            Param::clone,
            |param| unsafe { pine_derive(*param) },
            |_, derived| {
                accepted(derived.answer);
                let mut numbers = derived.numbers.to_vec();
                numbers[9] &= 0xff;
                numbers
            },
        ),
        by_hand: None,
    };
    row(single("derive", size_of::<Param>() + size_of::<Derived>()), any_param, ways)
}

fn of_a_share<F: Field>(d: usize) -> [Row; 3] {
    let at = chunks(d, USUAL_TESTS)[1];
    [tests::<F>(d, USUAL_TESTS, true), valid::<F>(d, USUAL_TESTS, at, 2), valid_sq_norm_equal::<F>(d, at, 2)]
}

fn of_dimension(d: usize) -> Vec<Row> {
    let mut rows = Vec::new();
    for t in TESTS {
        rows.push(encode::<Field64>(d, t));
        rows.push(tests::<Field64>(d, t, false));
        rows.extend(chunks(d, t).map(|at| valid::<Field64>(d, t, at, 1)));
        if USUAL_DIMENSIONS.contains(&d) {
            rows.push(encode_with(d, t, "enough tests", [1, 0]));
            rows.push(encode_with(d, t, "true norm", [0, 1]));
        }
    }
    rows.extend(chunks(d, USUAL_TESTS).map(|at| valid_sq_norm_equal::<Field64>(d, at, 1)));
    if USUAL_DIMENSIONS.contains(&d) {
        rows.extend(of_a_share::<Field64>(d));
    }
    rows.push(part("gradient_part", d, pine_gradient_part, 0));
    rows.push(part("checked_part", d, pine_checked_part, 1));
    rows.push(part("results_part", d, pine_results_part, 2));
    rows.push(empty_aggregate(d));
    let merge: OriginalAdding<Field64> = |agg, other| agg.merge(other).unwrap();
    rows.push(accumulate::<Field64>(d));
    rows.push(adding("merge", d, Some(merge), pine_merge, by_hand::accumulate));
    rows.push(adding::<Field64>("subtract", d, None, pine_subtract, by_hand::subtract));
    rows.push(unshard::<Field64>(d));
    rows
}

fn over_field128(d: usize) -> Vec<Row> {
    let mut rows = vec![encode::<Field128>(d, USUAL_TESTS), tests::<Field128>(d, USUAL_TESTS, false)];
    rows.extend(chunks(d, USUAL_TESTS).map(|at| valid::<Field128>(d, USUAL_TESTS, at, 1)));
    rows.extend(chunks(d, USUAL_TESTS).map(|at| valid_sq_norm_equal::<Field128>(d, at, 1)));
    rows.extend(of_a_share::<Field128>(d));
    rows.extend([accumulate::<Field128>(d), unshard::<Field128>(d)]);
    rows
}

fn small(d: usize) -> Vec<Row> {
    SMALL_TESTS.into_iter().flat_map(|t| [encode::<Field64>(d, t), tests::<Field64>(d, t, false)]).collect()
}

fn of_seed(d: usize) -> Vec<Row> {
    let mut rows: Vec<Row> =
        SEED_TESTS.into_iter().flat_map(|t| [encode_seed(d, t), tests_seed(d, t), cut(d, t)]).collect();
    rows.push(sample(d, USUAL_TESTS));
    rows
}

pub fn table() -> Vec<Row> {
    let mut rows: Vec<Row> = SMALL_DIMENSIONS.into_iter().flat_map(small).collect();
    rows.extend(DIMENSIONS.into_iter().flat_map(of_dimension));
    rows.extend(SEED_DIMENSIONS.into_iter().flat_map(of_seed));
    rows.extend([f64_to_field(), field_to_f64(), derive()]);
    rows.extend(USUAL_DIMENSIONS.into_iter().flat_map(over_field128));
    rows
}
