//! Puts drawn cases to libpine_c.a and to the original, in one process, and compares all that can be seen.
//!
//!     pine-differential [--seed S] [--count N] [--call NAME].. [--only INDEX]
//!
//! N cases, of the names given or of all: a call over either field, or a history of calls over one. The seed and its
//! index alone decide a case; --only tries one. It stops at the first difference with status 1.

mod at_hand;
mod case;
mod compare;
mod counts;
mod draw;
mod field;
mod history;
mod lent;
mod options;
mod original;
mod ours;
mod param;
mod random;
mod rules;
mod seed;
mod shares;
mod whole;

use at_hand::profile;
use case::Case;
use compare::{compare, Same};
use counts::{grouped, Counts};
use field::FIELDS;
use history::History;
use options::{Options, HISTORY};
use random::Random;
use std::{
    process::exit,
    time::{Duration, Instant},
};

enum Drawn {
    Call(Case),
    History(History),
}

/// One case in so many is a history.
const HISTORIES: u64 = 32;

/// The case of this index, if it is one of those named, and what is left to draw from.
fn drawn(options: &Options, index: u64) -> Option<(Drawn, Random)> {
    at_hand::set(options.seed, index);
    let mut random = Random::of_case(options.seed, index);
    let field = random.pick(&FIELDS);
    if index % HISTORIES == HISTORIES - 1 {
        return options.takes(HISTORY, field).then(|| (Drawn::History(History::new(&mut random, field)), random));
    }
    let call = random.pick(field.calls);
    options.takes(call.name(), field).then(|| (Drawn::Call(draw::case(&mut random, field, call)), random))
}

/// Where it is to be shown, the line comes first, since the case may end the process.
fn tried(case: &Case, shown: bool, attempt: impl FnOnce() -> Result<Same, String>) -> Same {
    if shown {
        println!("{case}");
    }
    let same = attempt().unwrap_or_else(|difference| {
        at_hand::say(&format!("{}: {difference}", case.name()));
        println!("case: {case}");
        exit(1)
    });
    if shown {
        println!("{}: {}: {}, no difference", profile(), case.name(), same.answer);
    }
    same
}

fn play(mut history: History, random: &mut Random, shown: bool, counts: &mut Counts) {
    while let Some(step) = history.next(random) {
        counts.add(&step.case, &tried(&step.case, shown, || history.make(random, &step)));
    }
    if let Err(difference) = history.is_tallied() {
        at_hand::say(&format!("{HISTORY}{}: {difference}", history.field().name));
        exit(1)
    }
}

struct Progress {
    begin: Instant,
    shown: Instant,
}

impl Progress {
    fn show(&mut self, made: u64, count: u64) {
        if self.shown.elapsed() < Duration::from_secs(5) {
            return;
        }
        self.shown = Instant::now();
        at_hand::goes_on();
        let speed = made as f64 / self.begin.elapsed().as_secs_f64();
        eprintln!("{}: {} of {}, {speed:.0} cases a second", profile(), grouped(made), grouped(count));
    }
}

fn try_all(options: &Options) {
    let (seed, count) = (options.seed, options.count);
    let begin = Instant::now();
    let mut progress = Progress { begin, shown: begin };
    let (mut counts, mut in_histories, mut histories) = (Counts::default(), Counts::default(), 0);
    let cases = (0..).filter_map(|index| drawn(options, index));
    for (made, (drawn, mut random)) in (1..=count).zip(cases) {
        match drawn {
            Drawn::Call(case) => counts.add(&case, &tried(&case, false, || compare(&mut random, &case))),
            Drawn::History(history) => {
                histories += 1;
                play(history, &mut random, false, &mut in_histories)
            }
        }
        progress.show(made, count);
    }
    let (cases, seconds) = (grouped(count), begin.elapsed().as_secs());
    println!("{}, seed {seed}: {cases} cases, no difference, {seconds} seconds", profile());
    counts.show("alone");
    in_histories.show(&format!("in {} histories", grouped(histories)));
}

fn try_one(options: &Options, index: u64) {
    let (drawn, mut random) = drawn(options, index).unwrap();
    match drawn {
        Drawn::Call(case) => {
            tried(&case, true, || compare(&mut random, &case));
        }
        Drawn::History(history) => play(history, &mut random, true, &mut Counts::default()),
    }
}

fn main() {
    original::keep_panics();
    at_hand::catch_signals();
    at_hand::goes_on();
    let options = Options::read();
    match options.only {
        Some(index) => try_one(&options, index),
        None => try_all(&options),
    }
}
