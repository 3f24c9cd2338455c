//! Records to convert, from either arrangement, damaged or not.

use cases::random::Random;
use compare::damage::{damage, output_length};
use compare::kind::as_verify;
use inputs::call::Call;
use oracle::arrangement::{Arrangement, move_maps};
use oracle::file::Case;

/// The record of a case in both arrangements, each to both converters; one in two is damaged.
pub fn conversions(random: &mut Random, seed: u64, place: u64) -> Vec<Call> {
    let (Case::Verify { record, .. } | Case::Judge { record, .. }) = as_verify(cases::case(seed, place));
    let mut pairs = record.clone();
    move_maps(&mut pairs, Arrangement::Pairs);
    let mut calls = Vec::new();
    for mut record in [pairs, record] {
        if random.chance(1, 2) {
            (0..random.pick(&[1, 1, 2])).for_each(|_| damage(random, &mut record));
        }
        for from in Arrangement::ALL {
            let length = output_length(random, record.len());
            calls.push(Call::Convert { from, record: record.clone(), length });
        }
    }
    calls
}
