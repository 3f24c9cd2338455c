//! Many places of a seed, on one thread or two, up to the first difference.

use std::sync::Mutex;
use std::sync::atomic::{AtomicU64, Ordering};
use std::thread;

/// The places of a seed under `count`.
pub struct Range {
    pub seed: u64,
    pub count: u64,
    pub threads: u64,
}

/// What a thread compares with; at the end it holds what came.
pub trait Counts: Default + Send {
    fn merge(&mut self, other: Self);
}

/// What the threads share.
struct Shared {
    /// Places that a thread takes at a time.
    block: u64,
    /// The next place that nobody took.
    next: AtomicU64,
    /// The lowest place with a difference so far, or the count.
    end: AtomicU64,
    /// That place's report.
    found: Mutex<Option<(u64, String)>>,
}

/// Compares all places, taken in blocks; fails with the report of the first difference.
pub fn run<C: Counts>(
    range: &Range,
    block: u64,
    compare: impl Fn(&mut C, u64) -> Result<(), String> + Sync,
) -> Result<C, String> {
    let Range { seed, count, threads } = *range;
    let shared = Shared { block, next: AtomicU64::new(0), end: AtomicU64::new(count), found: Mutex::new(None) };
    let mut all = C::default();
    thread::scope(|scope| {
        let threads: Vec<_> = (0..threads).map(|_| scope.spawn(|| shared.work(&compare))).collect();
        for thread in threads {
            all.merge(thread.join().expect("a thread ended before its work"));
        }
    });
    match shared.found.into_inner().expect("no thread panicked") {
        Some((place, report)) => Err(format!("seed {seed}, place {place}: {report}")),
        None => Ok(all),
    }
}

impl Shared {
    /// Takes blocks of places until all are taken or a lower place differs.
    fn work<C: Counts>(&self, compare: impl Fn(&mut C, u64) -> Result<(), String>) -> C {
        let mut counts = C::default();
        loop {
            let first = self.next.fetch_add(self.block, Ordering::Relaxed);
            if first >= self.end.load(Ordering::Relaxed) {
                return counts;
            }
            for place in first..first + self.block {
                if place >= self.end.load(Ordering::Relaxed) {
                    break;
                }
                if let Err(report) = compare(&mut counts, place) {
                    self.found(place, report);
                }
            }
        }
    }

    /// Keeps the lowest place. Blocks are handed out rising, so that every lower place is still run.
    fn found(&self, place: u64, report: String) {
        let mut found = self.found.lock().expect("no thread panicked");
        if found.as_ref().is_none_or(|(lowest, _)| place < *lowest) {
            *found = Some((place, report));
            self.end.fetch_min(place, Ordering::Relaxed);
        }
    }
}
