//! What memory takes: the sum of a row, and its copy.

use crate::{timed, Each, Random, Row, Title};
use std::{cell::RefCell, hint::black_box};

/// The bytes of a row.
const SIZES: [usize; 4] = [8 << 10, 512 << 10, 8 << 20, 64 << 20];

/// So many bytes are taken in one repetition, in passes over the row.
const PASSED: usize = 1 << 20;

fn sum(row: &[u64]) -> u64 {
    row.iter().fold(0, |sum, x| sum.wrapping_add(*x))
}

fn read_once(row: &[u64]) {
    black_box(sum(black_box(row)));
}

/// Nanoseconds for so many bytes that were just written.
pub fn read(bytes: usize) -> f64 {
    let row = black_box(vec![1; bytes / 8]);
    timed(|| read_once(&row))
}

/// For each element of a row.
fn passes(bytes: usize, mut pass: impl FnMut()) -> Each<f64> {
    let passes = (PASSED / bytes).max(1);
    let ns = timed(|| (0..passes).for_each(|_| pass()));
    [None, None, None, Some(ns / (passes * bytes / 8) as f64)]
}

fn reading(bytes: usize) -> Row {
    let row = vec![1; bytes / 8];
    let repeat = move |_: &mut Random, _| passes(bytes, || read_once(&row));
    Row { title: title("read", bytes), repeat: Box::new(repeat) }
}

fn copying(bytes: usize) -> Row {
    let (row, to) = (vec![1u64; bytes / 8], RefCell::new(vec![2; bytes / 8]));
    let repeat = move |_: &mut Random, _| {
        let mut to = to.borrow_mut();
        passes(bytes, || black_box(&mut to[..]).copy_from_slice(black_box(&row)))
    };
    Row { title: title("copy", bytes), repeat: Box::new(repeat) }
}

fn title(name: &str, bytes: usize) -> Title {
    Title::new("memory", name, bytes / 8, "element", bytes)
}

pub fn table() -> Vec<Row> {
    SIZES.map(reading).into_iter().chain(SIZES.map(copying)).collect()
}
