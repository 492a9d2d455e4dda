// What the runs of a benchmark took.

use std::time::Duration;

// The time of a run, the sum of what it answered, and the bytes of the last copy that left.
pub struct Ran {
    pub took: Duration,
    pub sum: u64,
    pub sent: Vec<u8>,
}

// The nanoseconds of a round: the time of all less the time of what enters before the rounds, in a run of its own.
pub fn per_round(filled: &Ran, all: &Ran, rounds: u64) -> f64 {
    all.took.saturating_sub(filled.took).as_nanos() as f64 / rounds as f64
}

pub fn median(times: &[f64]) -> f64 {
    let mut sorted = times.to_vec();
    sorted.sort_by(f64::total_cmp);
    sorted[sorted.len() / 2]
}
