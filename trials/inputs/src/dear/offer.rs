//! Books to open and to offer to.

use book::{Entry, LONGEST, Offer, Root, State};
use cases::random::Random;
use oracle::PEER_BUFFER;
use oracle::value::{Digest, Id, Peer, Point, Through};
use oracle::write;

use super::{Made, Shape, ends_alike, shortest, without_prev};
use crate::call::Call;
use crate::dag::Dag;
use crate::points::{Bytes, ROUND, judged, set, with_records};

/// A book keeps one entry more.
const MOST: usize = 4_095;
/// The most peers with which the Rust doesn't panic.
const PEERS: usize = 253;

pub const SHAPES: [Shape; 15] = [
    Shape::typical("the longest slice, opened", 0, |random, _| {
        let Bytes { settings, .. } = with_records(random, Vec::new(), Vec::new());
        Made { call: Call::Open { settings, length: LONGEST }, entries: 0 }
    }),
    Shape::typical("the next point, to 1,000 entries of 13 peers", 1_000, |_, count| {
        next(&Dag::new(13, count.max(30) + 1), count.max(30))
    }),
    Shape::dear("the next point, to 4,095 entries of 4 peers", MOST, |_, count| {
        next(&Dag::new(4, count.max(30) + 1), count.max(30))
    }),
    Shape::dear("the same, digests that end alike", MOST, |_, count| {
        next(&Dag::with_digests(4, count.max(30) + 1, ends_alike), count.max(30))
    }),
    Shape::dear("the next point, to 600 entries of 253 peers", 600, |_, count| {
        next(&Dag::new(PEERS, count.max(2 * PEERS + 2) + 1), count.max(2 * PEERS + 2))
    }),
    Shape::dear("505 dependencies that are not kept, to 64 shortest entries", 64, |random, count| {
        unkept(random, count, PEERS, Random::bytes)
    }),
    Shape::dear("the same, to 256", 256, |random, count| unkept(random, count, PEERS, Random::bytes)),
    Shape::dear("the same, to 4,095", MOST, |random, count| unkept(random, count, PEERS, Random::bytes)),
    Shape::dear("the same, all digests end alike", MOST, |random, count| unkept(random, count, PEERS, ends_alike)),
    Shape::dear("an unreadable record, to 4,095 shortest entries, digests that end alike", MOST, |random, count| {
        let mut made = unkept(random, count, 4, ends_alike);
        if let Call::Offer { offer, .. } = &mut made.call {
            offer.record.clear();
        }
        made
    }),
    Shape::dear("no previous point, to 4,095 versions of it", MOST, |random, count| {
        versions(random, 4, count, Random::bytes, ill_formed)
    }),
    Shape::dear("the same, digests that end alike", MOST, |random, count| {
        versions(random, 4, count, ends_alike, ill_formed)
    }),
    Shape::dear("the same, trans-invalid, and 504 dependencies that are not kept", MOST, |random, count| {
        versions(random, PEERS, count, ends_alike, trans_invalid)
    }),
    Shape::dear("a point to the longest slice without entries", 0, |random, _| {
        padded(unkept(random, 0, 4, Random::bytes), 0)
    }),
    Shape::dear("the same, its last byte not zero", 0, |random, _| padded(unkept(random, 0, 4, Random::bytes), 1)),
];

/// The next point of a DAG, to the book of those before it.
fn next(dag: &Dag, count: usize) -> Made {
    let offer = Offer {
        schedule: dag.schedule.clone(),
        leader: 0,
        record: dag.record(count).to_vec(),
        peer_buffer: PEER_BUFFER,
    };
    Made { call: Call::Offer { book: Some(dag.book(count, count + 1)), offer }, entries: count }
}

/// A point with full maps of a set, to a book that has none of what they name.
fn unkept(random: &mut Random, count: usize, peers: usize, digest: fn(&mut Random) -> Digest) -> Made {
    let set = set(random, peers);
    let mut point = judged(random, &set, 0);
    for (_, named) in point.includes.iter_mut().chain(&mut point.witness) {
        *named = digest(random);
    }
    let ids = (0..count).map(|_| Id { round: ROUND - 1, digest: digest(random), author: random.bytes() }).collect();
    made(random, set, ids, &point)
}

/// A point of a set of peers without a previous point, to a book of entries of its author in the round before.
fn versions(
    random: &mut Random,
    peers: usize,
    count: usize,
    digest: fn(&mut Random) -> Digest,
    entry: fn(Id) -> Entry,
) -> Made {
    let (set, point) = without_prev(random, peers);
    let version = |_| entry(Id { round: ROUND - 1, digest: digest(random), author: point.id.author });
    let entries: Vec<Entry> = (0..count).map(version).collect();
    to_book_of(random, set, &entries, &point)
}

/// A point, to a book of ill-formed entries with these ids.
fn made(random: &mut Random, set: Vec<Peer>, ids: Vec<Id>, point: &Point) -> Made {
    let entries: Vec<Entry> = ids.into_iter().map(ill_formed).collect();
    to_book_of(random, set, &entries, point)
}

/// A point, to a book of these entries, with room for the point.
fn to_book_of(random: &mut Random, set: Vec<Peer>, entries: &[Entry], point: &Point) -> Made {
    let Bytes { settings, schedule, .. } = with_records(random, set, Vec::new());
    let mut book = settings;
    entries.iter().for_each(|entry| entry.write(&mut book));
    let record = write::record(point);
    book.resize(book.len() + record.len() + book::BESIDE_RECORD, 0);
    let offer = Offer { schedule, leader: 0, record, peer_buffer: PEER_BUFFER };
    Made { call: Call::Offer { book: Some(book), offer }, entries: entries.len() }
}

/// An entry with the shortest record.
fn ill_formed(id: Id) -> Entry {
    let mut shortest = shortest(id);
    // direct links, which need not name a peer here
    (shortest.anchor_proof.to, shortest.anchor_trigger.to) = (None, None);
    Entry { record: write::record(&shortest), id, certified: false, state: State::IllFormed(3) }
}

/// An entry with the shortest record that reads in this state.
fn trans_invalid(id: Id) -> Entry {
    let root = Root { id, reason: 1, through: Through::Includes, peer: id.author };
    Entry { record: write::record(&shortest(id)), id, certified: false, state: State::TransInvalid(root) }
}

/// The same in the longest slice, with a last byte.
fn padded(mut made: Made, last: u8) -> Made {
    if let Call::Offer { book: Some(book), .. } = &mut made.call {
        book.resize(LONGEST, 0);
        book[LONGEST - 1] = last;
    }
    made
}
