//! Rounds of measuring, and their medians.

use std::time::Duration;

use inputs::clock::timed;

/// Calls of one input: the most, and processor time after which no further one is made.
const CALLS: usize = 31;
const ENOUGH: Duration = Duration::from_millis(300);

/// The times of every round, a way each; the first round only warms up.
pub fn rounds<Way: Copy, const WAYS: usize>(
    count: usize,
    ways: [Way; WAYS],
    mut time: impl FnMut(Way) -> Result<f64, String>,
) -> Result<Vec<[f64; WAYS]>, String> {
    let mut rounds = Vec::with_capacity(count);
    for round in 0..=count {
        let mut times = [0.0; WAYS];
        for (slot, way) in times.iter_mut().zip(ways) {
            *slot = time(way)?;
        }
        if round > 0 {
            rounds.push(times);
        }
    }
    Ok(rounds)
}

/// The median of what each round gives.
pub fn median<const WAYS: usize>(rounds: &[[f64; WAYS]], of: impl Fn(&[f64; WAYS]) -> f64) -> f64 {
    let mut sorted: Vec<f64> = rounds.iter().map(of).collect();
    sorted.sort_unstable_by(f64::total_cmp);
    sorted[sorted.len() / 2]
}

/// What a call gives, and the median of its times. Another's are not taken in between, so that its input stays in the caches.
pub fn repeated(mut call: impl FnMut() -> (u8, Duration)) -> (u8, Duration) {
    let (mut times, mut number, mut all) = (Vec::new(), 0, Duration::ZERO);
    while times.len() < CALLS && all < ENOUGH {
        let (given, took) = call();
        times.push(took);
        (number, all) = (given, all + took);
    }
    times.sort_unstable();
    (number, times[times.len() / 2])
}

/// Nanoseconds a call of the processor's time. Every call has to give true.
pub fn count<T>(calls: impl ExactSizeIterator<Item = T>, call: impl FnMut(T) -> bool) -> Result<f64, String> {
    let all = calls.len();
    let (right, took) = timed(|| calls.map(call).filter(|right| *right).count());
    if right == all {
        Ok(took.as_nanos() as f64 / all as f64)
    } else {
        Err(format!("{right} of {all} calls gave what they had to"))
    }
}
