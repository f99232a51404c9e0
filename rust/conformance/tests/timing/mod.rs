//! How long calls take beside each other.

use std::time::Instant;

fn seconds(call: &dyn Fn()) -> f64 {
    let start = Instant::now();
    call();
    start.elapsed().as_secs_f64()
}

/// How many times as long the first call takes as the second. In each of so many rounds the
/// one follows the other, so that a busy machine slows both; the round in the middle counts.
pub fn ratio(rounds: usize, [long, short]: [&dyn Fn(); 2]) -> f64 {
    let mut ratios: Vec<f64> = (0..rounds)
        .map(|_| seconds(long) / seconds(short))
        .collect();
    ratios.sort_by(f64::total_cmp);
    ratios[rounds / 2]
}
