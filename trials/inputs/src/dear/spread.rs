//! Books in which the previous point has much below it.

use book::{BESIDE_RECORD, Entry, LONGEST, Offer, State};
use cases::random::Random;
use oracle::PEER_BUFFER;
use oracle::value::{Digest, Id, Peer, Point};
use oracle::write;

use super::{Made, Shape, ends_alike, shortest};
use crate::call::Call;
use crate::points::{Bytes, ROUND, judged, set, with_records};

/// The most rows of a map.
const ROWS: usize = 255;

pub const SHAPES: [Shape; 3] = [
    Shape::dear(
        "below the previous point 900 entries of 255 rows, which name none of 3,100 below them",
        3_100,
        |random, count| {
            below_prev(random, &Below { large: count * 9 / 31, small: count, one: false, digest: Random::bytes })
        },
    ),
    Shape::dear("below it 1,500 of 150 rows, each of which names one of 2,500 below them", 2_500, |random, count| {
        below_prev(random, &Below { large: count * 3 / 5, small: count, one: true, digest: Random::bytes })
    }),
    Shape::dear("as the first of these, all digests end alike", 3_100, |random, count| {
        below_prev(random, &Below { large: count * 9 / 31, small: count, one: false, digest: ends_alike })
    }),
];

/// What stands below the previous point.
struct Below {
    /// Entries of as many rows as there is room for, all of which the previous point reaches.
    large: usize,
    /// Shortest entries below them.
    small: usize,
    /// Each large one names a small one.
    one: bool,
    digest: fn(&mut Random) -> Digest,
}

/// A point of four peers, to a book with its previous point, a few entries that it includes, and what stands below these.
fn below_prev(random: &mut Random, below: &Below) -> Made {
    let set = set(random, 4);
    let point = judged(random, &set, 0);
    let prev = Id { round: ROUND - 1, digest: *point.prev_digest().expect("it has one"), author: point.id.author };
    let ids = |random: &mut Random, round: u32, count: usize| -> Vec<Id> {
        (0..count).map(|_| Id { round, digest: (below.digest)(random), author: random.bytes() }).collect()
    };
    let small = ids(random, ROUND - 4, below.small);
    let large = ids(random, ROUND - 3, below.large);
    let few = ids(random, ROUND - 2, below.large.div_ceil(ROWS));
    let Bytes { settings, schedule, .. } = with_records(random, set, Vec::new());
    let mut book = settings;
    small.iter().for_each(|id| add(&mut book, *id, Vec::new()));
    let rows = rows(below);
    for (place, id) in large.iter().enumerate() {
        let mut map: Vec<_> = (0..rows).map(|_| (random.bytes(), (below.digest)(random))).collect();
        if below.one
            && let Some(id) = small.get(place)
        {
            map[0] = (id.author, id.digest);
        }
        add(&mut book, *id, map);
    }
    let pairs = |ids: &[Id]| ids.iter().map(|id| (id.author, id.digest)).collect();
    few.iter().zip(large.chunks(ROWS)).for_each(|(id, large)| add(&mut book, *id, pairs(large)));
    add(&mut book, prev, pairs(&few));
    let record = write::record(&point);
    book.resize(book.len() + record.len() + BESIDE_RECORD, 0);
    let offer = Offer { schedule, leader: 0, record, peer_buffer: PEER_BUFFER };
    let entries = below.small + below.large + few.len() + 1;
    Made { call: Call::Offer { book: Some(book), offer }, entries }
}

/// As many rows as the longest slice has room for.
fn rows(below: &Below) -> usize {
    let others = 100_000 + (below.small + below.large) * 512;
    ((LONGEST - others) / 64 / below.large.max(1)).min(ROWS)
}

/// A valid entry of a point with these includes.
fn add(book: &mut Vec<u8>, id: Id, mut includes: Vec<(Peer, Digest)>) {
    includes.sort_unstable();
    let record = write::record(&Point { includes, ..shortest(id) });
    Entry { record, id, certified: false, state: State::Valid }.write(book);
}
