//! Lists to judge by.

use cases::random::Random;
use oracle::PEER_BUFFER;
use oracle::file::Case;
use oracle::value::{Digest, Entry, Id, Peer, Point, State};
use oracle::write;

use super::{Made, Of, Shape, alike, ends_alike, shortest, without_prev};
use crate::call::Call;
use crate::points::{Bytes, ROUND, judged, list_of, set, with_records};

/// Entries beside the point's own, which are at most nine, so that no list is too long.
pub(super) const LONGEST: usize = 65_535 - 9;
/// Peers of the typical lists.
const PEERS: usize = 100;

pub const SHAPES: [Shape; 14] = [
    Shape::typical("all valid, full maps of 100 peers", PEERS, |random, count| {
        let set = set(random, count.max(4));
        full_maps(random, set)
    }),
    Shape::dear("all valid, full maps of 253 peers alike but for their last byte", 253, |random, count| {
        let set = alike(random, count.max(4));
        full_maps(random, set)
    }),
    Shape::dear("versions of the author, not found", LONGEST, |random, count| {
        versions(random, count, Random::bytes, State::NotFound)
    }),
    Shape::dear("versions of the author, not found, their digests alike in 24 bytes", LONGEST, |random, count| {
        versions(random, count, fronts_alike, State::NotFound)
    }),
    Shape::dear("versions of the author, not found, their digests end alike", LONGEST, |random, count| {
        versions(random, count, ends_alike, State::NotFound)
    }),
    Shape::dear("versions of the author, ill-formed", LONGEST, |random, count| {
        versions(random, count, Random::bytes, |id| State::IllFormed(id, 3))
    }),
    Shape::dear("versions of the author, ill-formed, their digests end alike", LONGEST, |random, count| {
        versions(random, count, ends_alike, |id| State::IllFormed(id, 3))
    }),
    Shape::dear("versions of the author, trans-invalid", LONGEST, |random, count| {
        versions(random, count, Random::bytes, |id| State::TransInvalid(shortest(id), id, 1))
    }),
    Shape::dear("versions of the author, trans-invalid, their digests end alike", LONGEST, |random, count| {
        versions(random, count, ends_alike, |id| State::TransInvalid(shortest(id), id, 1))
    }),
    Shape::dear("dropped entries", LONGEST, |random, count| {
        let point = without_prev(random, 4);
        let dropped = vec![entry(State::Dropped); count];
        made(random, &point, dropped)
    }),
    Shape::dear("ids of others, not found", LONGEST, |random, count| others(random, count, State::NotFound)),
    Shape::dear("shortest records of others, valid", LONGEST, |random, count| {
        others(random, count, |id| State::Valid(shortest(id)))
    }),
    Shape::dear("shortest records of others, trans-invalid", LONGEST, |random, count| {
        others(random, count, |id| State::TransInvalid(shortest(id), id, 1))
    }),
    Shape::dear("one dependency again and again, not found", LONGEST, |random, count| {
        let point = without_prev(random, 4);
        let (author, digest) = point.1.includes[0];
        let repeated = entry(State::NotFound(Id { round: ROUND - 1, digest, author }));
        made(random, &point, vec![repeated; count])
    }),
];

fn full_maps(random: &mut Random, set: Vec<Peer>) -> Made {
    let point = judged(random, &set, 0);
    made(random, &(set, point), Vec::new())
}

/// Entries of the author's points in the round before.
pub(super) fn versions(
    random: &mut Random,
    count: usize,
    digest: fn(&mut Random) -> Digest,
    state: fn(Id) -> State,
) -> Made {
    let of = without_prev(random, 4);
    let entries = versions_of(random, &of.1, count, digest, |_, id| entry(state(id)));
    made(random, &of, entries)
}

/// These alone, each made by its place.
pub(super) fn versions_of(
    random: &mut Random,
    point: &Point,
    count: usize,
    digest: fn(&mut Random) -> Digest,
    version: impl Fn(usize, Id) -> Entry,
) -> Vec<Entry> {
    let author = point.id.author;
    (0..count).map(|place| version(place, Id { round: ROUND - 1, digest: digest(random), author })).collect()
}

/// Entries that are not the point's: number 8, after all of the list is read and judged.
fn others(random: &mut Random, count: usize, state: fn(Id) -> State) -> Made {
    let of = without_prev(random, 4);
    let other = |_| entry(state(Id { round: ROUND - 1, digest: random.bytes(), author: random.bytes() }));
    let entries = (0..count).map(other).collect();
    made(random, &of, entries)
}

pub(super) fn entry(state: State) -> Entry {
    Entry { indirect: None, certified: false, first_valid: false, state }
}

fn fronts_alike(random: &mut Random) -> Digest {
    let mut digest = random.bytes();
    digest[..24].fill(7);
    digest
}

/// These entries, then the point's own.
pub(super) fn made(random: &mut Random, of: &Of, mut entries: Vec<Entry>) -> Made {
    entries.extend(list_of(random, &of.0, &of.1));
    whole(random, of, &entries)
}

/// The point's own entries without maps.
pub(super) fn short_list_of(random: &mut Random, set: &[Peer], point: &Point) -> Vec<Entry> {
    let mut list = list_of(random, set, point);
    for entry in &mut list {
        if let State::Valid(point) = &mut entry.state {
            (point.includes, point.witness, point.evidence) = Default::default();
        }
    }
    list
}

/// These entries alone.
pub(super) fn whole(random: &mut Random, (set, point): &Of, entries: &[Entry]) -> Made {
    let Bytes { settings, schedule, .. } = with_records(random, set.clone(), Vec::new());
    let (record, list) = (write::record(point), write::list(entries));
    let case = Case::Judge { settings, schedule, record, leader: 0, presence: 3, list, peer_buffer: PEER_BUFFER };
    Made { call: Call::Case(case), entries: entries.len() }
}
