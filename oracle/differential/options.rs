//! The command line.

use crate::field::{Field, FIELDS};
use std::process::exit;

pub struct Options {
    pub seed: u64,
    pub count: u64,
    /// Of calls and of histories; none stands for all.
    names: Vec<String>,
    pub only: Option<u64>,
}

/// What a history is called, over Field64.
pub const HISTORY: &str = "history";

fn usage(wrong: &str) -> ! {
    eprintln!("{wrong}? usage: [--seed S] [--count N] [--call NAME].. [--only INDEX]");
    exit(2)
}

/// Whether it is one of a call over this field, or of its histories.
fn is_name(name: &str, field: &Field) -> bool {
    let of_call = |word| word == HISTORY || field.calls.iter().any(|call| call.name() == word);
    name.strip_suffix(field.name).is_some_and(of_call)
}

impl Options {
    fn set(&mut self, name: &str, value: &str) {
        let number = || value.parse().unwrap_or_else(|_| usage(value));
        match name {
            "--seed" => self.seed = number(),
            "--count" => self.count = number(),
            "--only" => self.only = Some(number()),
            "--call" if FIELDS.iter().any(|field| is_name(value, field)) => self.names.push(value.into()),
            "--call" => usage(value),
            _ => usage(name),
        }
    }

    pub fn read() -> Options {
        let mut options = Options { seed: 1, count: 1_000_000, names: vec![], only: None };
        let mut words = std::env::args().skip(1);
        while let Some(name) = words.next() {
            let value = words.next().unwrap_or_else(|| usage(&name));
            options.set(&name, &value);
        }
        if options.only.is_some() {
            options.names.clear();
        }
        options
    }

    /// Whether a call over this field, or its histories, are to be tried.
    pub fn takes(&self, word: &str, field: &Field) -> bool {
        self.names.is_empty() || self.names.iter().any(|name| name.strip_suffix(field.name) == Some(word))
    }
}
