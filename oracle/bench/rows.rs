//! Measures rows: each says how to make fresh inputs, and the ways to work on them. A repetition makes inputs, takes
//! the ways in turn, each on copies of its own that were just written, compares what they give, and reads as many
//! bytes as their rows have.
//! `calls` has the rows of the calls, over the fields of `field`, `files` those on a day's file, `leaves` those of the
//! leaf functions, `memory` reading and copying.
//! A line of the output is a row, its columns parted by tabs; document.py reads them.

mod by_hand;
mod by_hand_calls;
mod calls;
mod field;
mod files;
mod leaves;
mod memory;
mod stream;

use by_hand::Number;
use std::{
    hint::black_box,
    time::{Duration, Instant, SystemTime},
};

const FRAC_BITS: u64 = 20;
const SCALE: f64 = (1u64 << FRAC_BITS) as f64;

pub struct Random(u64);

impl Random {
    fn next(&mut self) -> u64 {
        self.0 = self.0.wrapping_add(0x9e37_79b9_7f4a_7c15);
        let z = (self.0 ^ (self.0 >> 30)).wrapping_mul(0xbf58_476d_1ce4_e5b9);
        let z = (z ^ (z >> 27)).wrapping_mul(0x94d0_49bb_1331_11eb);
        z ^ (z >> 31)
    }

    /// From 0 up to 1.
    fn unit(&mut self) -> f64 {
        (self.next() >> 11) as f64 / (1u64 << 53) as f64
    }

    fn element<N: Number>(&mut self) -> N {
        loop {
            let mut words = N::Words::default();
            words.as_mut().fill_with(|| self.next());
            let x = N::of_words(words.as_ref());
            if x < N::P {
                return x;
            }
        }
    }

    fn elements(&mut self, n: usize) -> Vec<u64> {
        (0..n).map(|_| self.element()).collect()
    }

    fn bytes(&mut self, n: usize) -> Vec<u8> {
        let mut bytes: Vec<u8> = (0..n.div_ceil(8)).flat_map(|_| self.next().to_le_bytes()).collect();
        bytes.truncate(n);
        bytes
    }

    /// A gradient with a norm of about 1/2, of both signs.
    fn gradient(&mut self, n: usize) -> Vec<f64> {
        let largest = 0.9 / (n as f64).sqrt();
        (0..n).map(|_| (self.unit() * 2.0 - 1.0) * largest).collect()
    }
}

#[repr(C)]
struct Timespec {
    seconds: i64,
    nanoseconds: i64,
}

extern "C" {
    fn clock_gettime(clock: i32, now: *mut Timespec) -> i32;
}

/// The processor time of this thread, in nanoseconds.
fn thread_time() -> i64 {
    const CLOCK_THREAD_CPUTIME_ID: i32 = 3;
    let mut now = Timespec { seconds: 0, nanoseconds: 0 };
    assert_eq!(unsafe { clock_gettime(CLOCK_THREAD_CPUTIME_ID, &mut now) }, 0);
    now.seconds * 1_000_000_000 + now.nanoseconds
}

/// The lesser of the time on the wall and the thread's processor time: the second leaves out what other programs
/// took, and has some hundred nanoseconds for the asking, which the first has not.
fn timed(f: impl FnOnce()) -> f64 {
    let thread = thread_time();
    let wall = Instant::now();
    f();
    let wall = wall.elapsed().as_nanos() as f64;
    wall.min((thread_time() - thread) as f64)
}

/// What a way took for all inputs of a repetition, in nanoseconds, and what it gave for each.
type Run = (f64, Vec<Vec<u64>>);
type Way<S> = Box<dyn Fn(&[S]) -> Run>;

/// Only `work` is timed: `ready` copies what it works on, and `gave` reads what came of it.
fn way<S, W, R>(
    ready: impl Fn(&S) -> W + 'static,
    work: impl Fn(&mut W) -> R + 'static,
    gave: impl Fn(W, R) -> Vec<u64> + 'static,
) -> Way<S> {
    Box::new(move |inputs| {
        let mut rows: Vec<W> = inputs.iter().map(&ready).collect();
        let mut results = Vec::with_capacity(rows.len());
        let ns = timed(|| rows.iter_mut().for_each(|w| results.push(black_box(work(w)))));
        (ns, rows.into_iter().zip(results).map(|(w, r)| gave(w, r)).collect())
    })
}

struct Ways<S> {
    original: Option<Way<S>>,
    ours: Way<S>,
    by_hand: Option<Way<S>>,
}

/// What a row is of: the columns that name it, and how its time is shown.
struct Title {
    kind: &'static str,
    name: String,
    length: usize,
    tests: Option<usize>,
    /// What else the row differs in.
    note: String,
    /// What the time is divided by: how many of what.
    count: usize,
    of: &'static str,
    /// The bytes of all rows of one input.
    bytes: usize,
}

impl Title {
    /// The time of one call for each of its length.
    fn new(kind: &'static str, name: &str, length: usize, of: &'static str, bytes: usize) -> Title {
        Title { kind, name: name.into(), length, tests: None, note: String::new(), count: length, of, bytes }
    }

    fn text(&self) -> String {
        let tests = self.tests.map(|t| format!(", T = {t}")).unwrap_or_default();
        let note = if self.note.is_empty() { String::new() } else { format!(", {}", self.note) };
        format!("{}{tests}{note}", self.name)
    }
}

/// By way, and for reading: none, if a row has none.
type Each<T> = [Option<T>; 4];

struct Row {
    title: Title,
    /// One repetition, beginning with the way of that number: nanoseconds for one of `of`.
    repeat: Box<dyn Fn(&mut Random, usize) -> Each<f64>>,
}

/// So many inputs that their rows have about so many bytes: a short call is timed over many of them.
const BATCH_BYTES: usize = 1 << 15;

fn row<S: 'static>(title: Title, fresh: impl Fn(&mut Random) -> S + 'static, ways: Ways<S>) -> Row {
    let batch = (BATCH_BYTES / title.bytes).max(1);
    let (text, count, bytes) = (title.text(), (batch * title.count) as f64, batch * title.bytes);
    let ways = [ways.original, Some(ways.ours), ways.by_hand];
    let repeat = move |random: &mut Random, first: usize| {
        let inputs: Vec<S> = (0..batch).map(|_| fresh(random)).collect();
        let mut times = [None, None, None, Some(memory::read(bytes) / count)];
        let mut given: Option<Vec<Vec<u64>>> = None;
        for at in (0..3).map(|k| (first + k) % 3) {
            let Some(way) = &ways[at] else { continue };
            let (ns, gave) = way(&inputs);
            times[at] = Some(ns / count);
            match &given {
                Some(g) => assert!(*g == gave, "{text}: way {at} gives something else"),
                None => given = Some(gave),
            }
        }
        times
    };
    Row { title, repeat: Box::new(repeat) }
}

const BUDGET: Duration = Duration::from_millis(1000);

/// Whether a row that was repeated so often, in so much time, has had enough.
fn enough(times: usize, spent: Duration) -> bool {
    times >= 2001 || (times >= 15 && spent > BUDGET) || (times >= 7 && spent > 4 * BUDGET)
}

/// The lower quartile, the median and the upper quartile.
fn quartiles(mut all: Vec<f64>) -> [f64; 3] {
    all.sort_by(f64::total_cmp);
    [1, 2, 3].map(|quarters| all[(all.len() - 1) * quarters / 4])
}

fn measure(row: &Row, random: &mut Random) -> Vec<Each<f64>> {
    let mut times = vec![];
    let begin = Instant::now();
    while !enough(times.len(), begin.elapsed()) {
        times.push((row.repeat)(random, times.len()));
    }
    times
}

/// The quartiles of what each repetition has, if it has it.
fn spread(times: &[Each<f64>], of: impl Fn(&Each<f64>) -> Option<f64>) -> String {
    let all: Vec<f64> = times.iter().filter_map(of).collect();
    if all.is_empty() {
        return String::new();
    }
    quartiles(all).map(|x| format!("{x:.5}")).join(" ")
}

/// One way's time over another's, in the same repetition: the machine's speed changes between repetitions.
fn ratio(times: &[Each<f64>], way: usize, other: usize) -> String {
    spread(times, |t| Some(t[way]? / t[other]?))
}

fn print(title: &Title, times: &[Each<f64>]) {
    let Title { kind, name, length, tests, note, of, .. } = title;
    let tests = tests.map(|t| t.to_string()).unwrap_or_default();
    let ways = [0, 1, 2, 3].map(|way| spread(times, |t| t[way])).join("\t");
    let ratios = [(0, 1), (2, 1), (1, 3)].map(|(way, other)| ratio(times, way, other)).join("\t");
    println!("{kind}\t{name}\t{length}\t{tests}\t{note}\t{of}\t{ways}\t{ratios}");
}

fn main() {
    let only = std::env::args().nth(1).unwrap_or_default();
    let mut random = Random(SystemTime::UNIX_EPOCH.elapsed().unwrap().as_nanos() as u64);
    let rows = memory::table().into_iter().chain(calls::table()).chain(leaves::table()).chain(files::table());
    for row in rows.filter(|r| r.title.kind == "memory" || r.title.text().contains(&only)) {
        print(&row.title, &measure(&row, &mut random));
    }
}
