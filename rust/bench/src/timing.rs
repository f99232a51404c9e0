//! Times of calls, in samples.

use std::time::{Duration, Instant};

use crate::pace;

/// How long a sample lasts at least, how many are taken of a call, and how many of
/// one that is so long that they would take longer than this.
pub const SAMPLE: Duration = Duration::from_millis(10);
pub const SAMPLES: usize = 32;
pub const FEWEST_SAMPLES: usize = 5;
const PATIENCE: Duration = Duration::from_secs(2);

/// So many times as many samples are taken at most until enough are at full pace.
const TRIES: usize = 2;

/// What is timed: a call on inputs. Its answer goes through `black_box`.
pub type Call<'a> = &'a dyn Fn(&[&[u8]]);

/// The times of each of the calls, in seconds: of all samples the least, which has the
/// least of everything else in it. The samples are taken in turn, so that all calls see
/// the machine alike, until so many were taken at its full pace. Where the inputs stand by
/// chance, to the byte, can cost a third, so each sample has them elsewhere.
pub fn times<const N: usize>(inputs: &[&[u8]], calls: [Call; N]) -> [f64; N] {
    let filled = calls.map(|call| fill(call, inputs));
    let longest = filled.iter().map(|(_, time)| *time).max();
    let wanted = samples(longest.unwrap_or(SAMPLE));
    let mut least = [f64::INFINITY; N];
    let mut counted = 0;
    for round in 0..TRIES * wanted {
        let room = Room::new(inputs, round);
        let before = pace::is_full();
        for i in 0..N {
            let (count, _) = filled[i];
            let time = sample(calls[i], &room.inputs(), count);
            least[i] = least[i].min(time.as_secs_f64() / f64::from(count));
        }
        counted += usize::from(before && pace::is_full());
        if counted == wanted {
            break;
        }
    }
    least
}

/// The samples that are taken where one lasts so long.
fn samples(sample: Duration) -> usize {
    let affordable = PATIENCE.as_nanos() / sample.as_nanos();
    (affordable as usize).clamp(FEWEST_SAMPLES, SAMPLES)
}

/// Calls that fill a sample, and how long they take.
fn fill(call: Call, inputs: &[&[u8]]) -> (u32, Duration) {
    let mut count = 1;
    loop {
        let time = sample(call, inputs, count);
        if time >= SAMPLE {
            return (count, time);
        }
        count *= 2;
    }
}

fn sample(call: Call, inputs: &[&[u8]], count: u32) -> Duration {
    let start = Instant::now();
    for _ in 0..count {
        call(inputs);
    }
    start.elapsed()
}

/// Copies of the inputs in one buffer, in other places each round.
struct Room {
    bytes: Vec<u8>,
    ends: Vec<(usize, usize)>,
}

impl Room {
    /// No two of so many rounds have the same place in a page.
    const STRIDE: usize = 136;

    fn new(inputs: &[&[u8]], round: usize) -> Room {
        let mut bytes = Vec::new();
        let mut ends = Vec::new();
        for input in inputs {
            bytes.resize(bytes.len() + round * Self::STRIDE, 0);
            ends.push((bytes.len(), bytes.len() + input.len()));
            bytes.extend(*input);
        }
        Room { bytes, ends }
    }

    fn inputs(&self) -> Vec<&[u8]> {
        let part = |(begin, end): &(usize, usize)| &self.bytes[*begin..*end];
        self.ends.iter().map(part).collect()
    }
}

#[cfg(test)]
mod tests {
    use super::*;

    #[test]
    fn a_long_call_has_fewer_samples() {
        let of_ms = |ms| samples(Duration::from_millis(ms));
        assert_eq!([10, 62, 100, 1_600].map(of_ms), [32, 32, 20, 5]);
    }
}
