//! Points in parts, to be written.

use cases::random::Random;
use oracle::draft::Draft;
use oracle::value::Peer;
use oracle::write;

use super::{Made, Shape, alike};
use crate::call::Call;
use crate::points::{judged, set};

/// The most rows of a map.
const ROWS: usize = 255;

pub const SHAPES: [Shape; 4] = [
    Shape::typical("full maps of 100 peers, rising", 100, |random, count| {
        let set = set(random, count.max(4));
        full_maps(&set, random, |_, _| {})
    }),
    Shape::typical("full maps of 100 peers, shuffled", 100, |random, count| {
        let set = set(random, count.max(4));
        full_maps(&set, random, Random::shuffle)
    }),
    Shape::dear("full maps of 255 peers, alike but for their last byte, falling", ROWS, |random, count| {
        let set = alike(random, count.max(4));
        full_maps(&set, random, |_, rows| rows.reverse())
    }),
    Shape::dear("full maps of 255 peers, alike but for their last byte, shuffled", ROWS, |random, count| {
        let set = alike(random, count.max(4));
        full_maps(&set, random, Random::shuffle)
    }),
];

/// A point whose peers come in an order.
fn full_maps(set: &[Peer], random: &mut Random, arrange: fn(&mut Random, &mut [Peer])) -> Made {
    let mut point = judged(random, set, 0);
    let length = write::record(&point).len();
    for map in [&mut point.includes, &mut point.witness] {
        let mut peers: Vec<Peer> = map.iter().map(|pair| pair.0).collect();
        arrange(random, &mut peers);
        map.iter_mut().zip(peers).for_each(|(pair, peer)| pair.0 = peer);
    }
    arrange(random, &mut point.evidence);
    let entries = point.includes.len() + point.witness.len() + point.evidence.len();
    Made { call: Call::Compose { draft: Box::new(Draft::of(&point)), length }, entries }
}
