//! Stands in for rand. Document 01 hands the leader in, so the one draw of the source, the choice of
//! the leader in wave.rs, gives the place that the oracle sets here.

use std::cell::Cell;
use std::ops::Range;

thread_local! {
    static NEXT: Cell<usize> = const { Cell::new(0) };
}

/// The place that the next draw gives.
pub fn set_next(place: usize) {
    NEXT.set(place);
}

pub trait SeedableRng {
    fn seed_from_u64(seed: u64) -> Self;
}

pub trait Rng {
    fn random_range(&mut self, range: Range<usize>) -> usize {
        let place = NEXT.get();
        assert!(range.contains(&place), "the leader's place lies outside the set");
        place
    }
}
