//! How fast the machine is at the moment. A virtual machine's processor shares its core
//! with others and changes its clock: for seconds on end all that it does takes half as
//! long again, also what touches no memory.

use std::hint::black_box;
use std::sync::atomic::{AtomicU64, Ordering};
use std::time::Instant;

/// The loop that is timed, and how often it is, so that an interruption does not count.
const ROUNDS: u64 = 20_000;
const RUNS: usize = 3;

/// The least nanoseconds of the loop so far.
static LEAST: AtomicU64 = AtomicU64::new(u64::MAX);

/// Whether the loop takes at most a twentieth more than its least time so far.
pub fn is_full() -> bool {
    if LEAST.load(Ordering::Relaxed) == u64::MAX {
        // Enough to have seen the full pace once.
        for _ in 0..1_000 {
            measure();
        }
    }
    let time = measure();
    20 * time <= 21 * LEAST.load(Ordering::Relaxed)
}

/// The least of some runs of the loop, in nanoseconds.
fn measure() -> u64 {
    let times = (0..RUNS).map(|_| spin());
    let time = times.min().unwrap_or(u64::MAX);
    LEAST.fetch_min(time, Ordering::Relaxed);
    time
}

/// A loop on registers alone, each round of which waits for the one before.
fn spin() -> u64 {
    let start = Instant::now();
    let mut word = black_box(1_u64);
    for _ in 0..ROUNDS {
        word = word.wrapping_mul(0x9e37_79b9_7f4a_7c15).rotate_left(7);
    }
    black_box(word);
    start.elapsed().as_nanos() as u64
}
