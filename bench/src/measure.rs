//! Two implementations of one step, timed in alternating batches.

use std::hint::black_box;
use std::time::Instant;

const BATCHES: usize = 151;
const BATCH_NANOSECONDS: f64 = 60_000.0;

/// Nanoseconds a call, and the ratio of the first to the second; each the median of the batches.
pub struct Times {
    pub first: f64,
    pub second: f64,
    pub ratio: f64,
}

fn median(mut values: Vec<f64>) -> f64 {
    values.sort_by(f64::total_cmp);
    values[values.len() / 2]
}

fn batch(step: &mut impl FnMut() -> u64, turns: u32) -> f64 {
    let start = Instant::now();
    for _ in 0..turns {
        black_box(step());
    }
    start.elapsed().as_nanos() as f64 / f64::from(turns)
}

/// Turns of a batch that lasts long enough for the clock and short enough for many batches.
fn turns_of(step: &mut impl FnMut() -> u64) -> u32 {
    let once = median((0..9).map(|_| batch(step, 16)).collect());
    (BATCH_NANOSECONDS / once).clamp(1.0, 1e6) as u32
}

/// A step of either implementation makes `calls` calls.
pub fn compare<S>(
    state: &mut S,
    calls: u32,
    mut first: impl FnMut(&mut S) -> u64,
    mut second: impl FnMut(&mut S) -> u64,
) -> Times {
    let turns = turns_of(&mut || first(state));
    let (mut firsts, mut seconds) = (Vec::new(), Vec::new());
    for _ in 0..BATCHES {
        firsts.push(batch(&mut || first(state), turns) / f64::from(calls));
        seconds.push(batch(&mut || second(state), turns) / f64::from(calls));
    }
    let ratios = firsts.iter().zip(&seconds).map(|(a, b)| a / b).collect();
    Times { first: median(firsts), second: median(seconds), ratio: median(ratios) }
}
