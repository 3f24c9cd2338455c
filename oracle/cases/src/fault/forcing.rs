//! Points for which several entries have reasons, so that the order chooses among them.

use oracle::file::Case;

use super::entries::{drop_entry, presence_two, spare_drop, unusable, unusable_target, version};
use super::{Fault, JUDGING, RECORDING, start};
use crate::random::Random;

/// One fault of judging, and up to three more in the same scene.
pub fn forcing(random: &mut Random) -> Case {
    let pick = |random: &mut Random, faults: &'static [Fault]| &faults[random.below(faults.len())];
    let first = pick(random, JUDGING);
    let mut scene = start(random, first);
    (first.change)(&mut scene, random);
    for _ in 0..random.below(4) {
        match random.below(12) {
            0 => drop_entry(&mut scene, random),
            1 => spare_drop(&mut scene, random),
            2 => unusable(&mut scene, random, true),
            3 => unusable(&mut scene, random, false),
            4 => unusable_target(&mut scene, random),
            5 if scene.prev().is_none() => {
                let skipped = random.chance(1, 2);
                version(&mut scene, random, skipped);
            }
            6 => (pick(random, RECORDING).change)(&mut scene, random),
            _ => (pick(random, JUDGING).change)(&mut scene, random),
        }
    }
    match random.below(24) {
        0 => presence_two(&mut scene, random),
        1 => scene.presence = random.below(4) as u8,
        _ => {}
    }
    scene.judge()
}
