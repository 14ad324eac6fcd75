//! The bound of the wraparound tests, for every norm bound that docs/PINE.md allows: is the rounded form of the
//! Rust the same as the whole-number form?  `Pine::new` multiplies by 8.7 as a double; docs/PINE.md says "the
//! smallest power of two not below ceil(87n / 10) + 1" and "binary digits of 2b - 1".
//!
//! Prints a line for those that Field64 allows and one for those that Field128 allows beside them, and fails if a bound or
//! its number of digits (the width) differs anywhere. `Pine::new` is the same code over both.

use std::process::ExitCode;

const ALPHA: f64 = 8.7;
const LAST: u64 = 3037000499;
const LAST_128: u64 = 4294967295;

/// As `bits` in the Rust.
fn bits(x: u64) -> u32 {
    if x == 0 {
        return 1;
    }
    x.ilog2() + 1
}

/// Whether no bound and no width differs.
fn same(start: u64, last: u64) -> bool {
    // The smallest power of two not below the present n's ceil(87n / 10) + 1, which never falls as n grows.
    let (mut bound, mut log) = (1_u64, 0_u32);
    let (mut checked, mut bounds, mut widths, mut ceilings) = (0_u64, 0_u64, 0_u64, 0_u64);
    let mut first = None;
    for n in start..=last {
        let rounded = (n as f64 * ALPHA).ceil() as u64;
        let whole = (87 * n).div_ceil(10);
        while bound < whole + 1 {
            bound *= 2;
            log += 1;
        }
        let test_bound = (rounded + 1).next_power_of_two();
        bounds += u64::from(test_bound != bound);
        widths += u64::from(bits(2 * test_bound - 1) != log + 1);
        checked += 1;
        if rounded != whole {
            ceilings += 1;
            first = first.or(Some((n, rounded, whole)));
        }
    }
    print!("n from {start} to {last}, {checked} checked: {bounds} bounds differ, {widths} widths differ, {ceilings} ceilings differ");
    match first {
        None => println!(),
        Some((n, rounded, whole)) => println!(", first at n = {n}: {rounded} in the Rust, {whole} in whole numbers"),
    }
    bounds + widths == 0
}

fn main() -> ExitCode {
    let both = [same(1, LAST), same(LAST + 1, LAST_128)];
    ExitCode::from(u8::from(both != [true; 2]))
}
