//! Which case is being tried, for the message if it ends the process or does not end.

use std::sync::atomic::{AtomicU64, Ordering::Relaxed};

static SEED: AtomicU64 = AtomicU64::new(0);
static INDEX: AtomicU64 = AtomicU64::new(0);

/// In seconds; a case takes one at most.
const PATIENCE: u32 = 120;

extern "C" {
    fn signal(number: i32, handler: extern "C" fn(i32)) -> usize;
    fn alarm(seconds: u32) -> u32;
    fn _exit(status: i32) -> !;
}

pub fn profile() -> &'static str {
    if cfg!(debug_assertions) {
        "checked"
    } else {
        "release"
    }
}

pub fn set(seed: u64, index: u64) {
    SEED.store(seed, Relaxed);
    INDEX.store(index, Relaxed);
}

/// The first lines of the message.
pub fn say(difference: &str) {
    println!("DIFFERENCE, {}: {difference}", profile());
    println!("again: SEED={} oracle/differential/run --only {}", SEED.load(Relaxed), INDEX.load(Relaxed));
}

extern "C" fn on_signal(number: i32) {
    say(&format!("ended by signal {number}"));
    unsafe { _exit(1) }
}

pub fn catch_signals() {
    const ILL_TRAP_ABRT_BUS_FPE_SEGV_ALRM: [i32; 7] = [4, 5, 6, 7, 8, 11, 14];
    for number in ILL_TRAP_ABRT_BUS_FPE_SEGV_ALRM {
        unsafe { signal(number, on_signal) };
    }
}

/// To be said again and again.
pub fn goes_on() {
    unsafe { alarm(PATIENCE) };
}
