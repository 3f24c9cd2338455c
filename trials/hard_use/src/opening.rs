//! Openings: those of the feeds, and slices around the limits.

use book::{LONGEST, SETTINGS};
use cases::random::Random;
use inputs::call::Call;

/// One in n slices is around the greatest length, of 16 MiB.
const LONG: usize = 1_000;

pub fn opening(random: &mut Random, seed: u64, place: u64) -> Call {
    // the odd ones have no slice of 16 MiB
    let (mut settings, length) = feeds::opening(seed, place | 1);
    if random.chance(1, 8) {
        compare::damage::damage(random, &mut settings);
    }
    let near = SETTINGS - 3 + random.below(7);
    let page = 4_096 * (1 + random.below(4)) - 2 + random.below(5);
    let any = random.below(20_000);
    let length = random.pick(&[length, near, page, any]);
    let length = if random.chance(1, LONG) { LONGEST - 1 + random.below(3) } else { length };
    Call::Open { settings, length }
}
