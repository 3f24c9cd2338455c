//! Records to convert.

use cases::random::Random;
use oracle::arrangement::Arrangement;
use oracle::value::Peer;
use oracle::write;

use super::{Made, Shape, alike};
use crate::call::Call;
use crate::points::{judged, set};

/// The most rows of a map.
const ROWS: usize = 255;

pub const SHAPES: [Shape; 4] = [
    Shape::typical(TYPICAL, 100, |random, count| full_maps(&set(random, count.max(4)), random, Arrangement::Pairs)),
    Shape::dear(ALIKE, ROWS, |random, count| full_maps(&alike(random, count.max(4)), random, Arrangement::Pairs)),
    Shape::typical(TYPICAL, 100, |random, count| full_maps(&set(random, count.max(4)), random, Arrangement::Columns)),
    Shape::dear(ALIKE, ROWS, |random, count| full_maps(&alike(random, count.max(4)), random, Arrangement::Columns)),
];

const TYPICAL: &str = "full maps of 100 peers";
const ALIKE: &str = "full maps of 255 peers, alike but for their last byte";

fn full_maps(set: &[Peer], random: &mut Random, from: Arrangement) -> Made {
    let point = judged(random, set, 0);
    let record = write::record_in(from, &point);
    let (length, entries) = (record.len(), point.includes.len() + point.witness.len() + point.evidence.len());
    Made { call: Call::Convert { from, record, length }, entries }
}
