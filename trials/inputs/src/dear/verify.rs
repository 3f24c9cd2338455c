//! Records to verify.

use cases::random::Random;
use oracle::PEER_BUFFER;
use oracle::file::Case;
use oracle::value::{Peer, Point, Schedule, Span};
use oracle::write;

use super::{Made, Shape, alike, shortest};
use crate::call::Call;
use crate::points::{Bytes, GENESIS, ROUND, judged, set, with_records};

/// The most peers with which the Rust doesn't panic.
const PEERS: usize = 253;

pub const SHAPES: [Shape; 6] = [
    Shape::typical("full maps of 100 peers", 100, |random, count| {
        let set = set(random, count.max(4));
        full_maps(random, set)
    }),
    Shape::dear("full maps of 253 peers", PEERS, |random, count| {
        let set = set(random, count.max(4));
        full_maps(random, set)
    }),
    Shape::dear("the same, peers alike but for their last byte", PEERS, |random, count| {
        let set = alike(random, count.max(4));
        full_maps(random, set)
    }),
    Shape::dear("the same, its peers after three spans of 255", PEERS, |random, count| {
        let set = set(random, count.max(4));
        let point = judged(random, &set, 0);
        let spans = four_spans(random, &set);
        made(random, set, spans, &point)
    }),
    Shape::dear("the same, no peer but the author scheduled", PEERS, |random, count| {
        let set = set(random, count.max(4));
        let point = judged(random, &set, 0);
        let mut scheduled = self::set(random, count.max(4));
        scheduled[0] = point.id.author;
        scheduled.sort_unstable();
        made(random, set, vec![Span { first: GENESIS, peers: scheduled }], &point)
    }),
    Shape::dear("the shortest record, its peers after three spans of 255", 1, |random, _| {
        let set = set(random, 4);
        let point = shortest(judged(random, &set, 0).id);
        let spans = four_spans(random, &set);
        made(random, set, spans, &point)
    }),
];

/// Three of 255 peers, and the set's after them.
fn four_spans(random: &mut Random, set: &[Peer]) -> Vec<Span> {
    let mut spans: Vec<Span> =
        (0..3).map(|place| Span { first: GENESIS + place, peers: self::set(random, 255) }).collect();
    spans.push(Span { first: GENESIS + 3, peers: set.to_vec() });
    spans
}

fn full_maps(random: &mut Random, set: Vec<Peer>) -> Made {
    let point = judged(random, &set, 0);
    let spans = vec![Span { first: GENESIS, peers: set.clone() }];
    made(random, set, spans, &point)
}

fn made(random: &mut Random, set: Vec<Peer>, spans: Vec<Span>, point: &Point) -> Made {
    let Bytes { settings, .. } = with_records(random, set, Vec::new());
    let schedule = write::schedule(&Schedule { spans, last_known: ROUND + 4 });
    let case = Case::Verify { settings, schedule, record: write::record(point), peer_buffer: PEER_BUFFER };
    let entries = point.includes.len() + point.witness.len() + point.evidence.len();
    Made { call: Call::Case(case), entries }
}
