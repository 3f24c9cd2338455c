//! Lists by which the network can force reasons. Where there is room for all rows for certain, the call walks a list once, and once more
//! for each number that these have; else it does all that twice, to count and to write.

use cases::random::Random;
use oracle::value::{AnchorLink, Digest, Entry, Id, Point, PointRole, State, Through};

use super::judge::{LONGEST, entry, made, short_list_of, versions_of, whole};
use super::{Made, Of, Shape, ends_alike, question, room, shortest, without_prev};
use crate::call::Call;
use crate::faults::{FULL, full};
use crate::points::ROUND;

/// Peers of the points with versions.
const PEERS: usize = 4;
/// Peers of the points that have a dependency for each kind of reason.
const PEERS_OF_ELEVEN: usize = 7;
/// Entries beside which stand the point's own and three more.
const LONGEST_OF_ELEVEN: usize = 65_535 - 2 * PEERS_OF_ELEVEN - 3;

pub const SHAPES: [Shape; 8] = [
    Shape::typical("one entry not found, full maps of 100 peers", 100, |_, count| {
        forced(Made::of(full(FULL[7], count.max(PEERS), 0)))
    }),
    Shape::dear(
        "versions of the author, not found and certified, and ill-formed, by turns",
        LONGEST,
        |random, count| versions(random, count, absent),
    ),
    Shape::dear("versions of the author, valid and trans-invalid, by turns", LONGEST, |random, count| {
        versions(random, count, present)
    }),
    Shape::dear("reasons of eleven numbers, 253 peers, the dependencies without maps", 253, |random, count| {
        let of = linked(random, count.max(PEERS_OF_ELEVEN));
        eleven(random, &of, Vec::new())
    }),
    Shape::dear("reasons of eleven numbers, and dropped entries", LONGEST_OF_ELEVEN, |random, count| {
        let of = linked(random, PEERS_OF_ELEVEN);
        eleven(random, &of, vec![entry(State::Dropped); count])
    }),
    Shape::dear("reasons of eleven numbers, versions not found and ill-formed", LONGEST_OF_ELEVEN, |random, count| {
        eleven_and_versions(random, count, Random::bytes, absent)
    }),
    Shape::dear("reasons of eleven numbers, versions valid and trans-invalid", LONGEST_OF_ELEVEN, |random, count| {
        eleven_and_versions(random, count, Random::bytes, present)
    }),
    Shape::dear("the same, their digests end alike", LONGEST_OF_ELEVEN, |random, count| {
        eleven_and_versions(random, count, ends_alike, present)
    }),
];

/// An entry has one row at most.
fn forced(made: Made) -> Made {
    made.to(|case, entries| {
        let length = room(&case, entries, 1);
        Call::Force { question: question(case), length }
    })
}

/// A version of the author that has a reason: certified, and the first valid one.
fn version(state: State) -> Entry {
    Entry { certified: true, first_valid: true, ..entry(state) }
}

fn absent(place: usize, id: Id) -> Entry {
    version(if place.is_multiple_of(2) { State::NotFound(id) } else { State::IllFormed(id, 3) })
}

fn present(place: usize, id: Id) -> Entry {
    let point = shortest(id);
    version(if place.is_multiple_of(2) { State::Valid(point) } else { State::TransInvalid(point, id, 1) })
}

fn versions(random: &mut Random, count: usize, version: fn(usize, Id) -> Entry) -> Made {
    let of = without_prev(random, PEERS);
    let versions = versions_of(random, &of.1, count, Random::bytes, version);
    forced(made(random, &of, versions))
}

fn eleven_and_versions(
    random: &mut Random,
    count: usize,
    digest: fn(&mut Random) -> Digest,
    version: fn(usize, Id) -> Entry,
) -> Made {
    let of = linked(random, PEERS_OF_ELEVEN);
    let versions = versions_of(random, &of.1, count, digest, version);
    eleven(random, &of, versions)
}

/// A point without a previous one, whose links lead through two of its includes to two of its witness.
fn linked(random: &mut Random, peers: usize) -> Of {
    let (set, mut point) = without_prev(random, peers);
    let targets: Vec<Id> = point.dependencies(Through::Witness).take(2).collect();
    let [proof, trigger] = [0, 1].map(|place| AnchorLink {
        through: Through::Includes,
        peer: point.includes[place].0,
        to: Some(targets[place]),
    });
    (point.anchor_proof, point.anchor_trigger) = (proof, trigger);
    (set, point)
}

/// A dropped entry, after which judging asks for no more reasons, two versions, these entries, and the point's own with reasons. No list
/// has more numbers: 4 to 7 are a previous point's, beside which versions give none of their two; of 8 and 16 the point's role leaves
/// one; and 14 is of indirect entries.
fn eleven(random: &mut Random, of @ (set, point): &Of, entries: Vec<Entry>) -> Made {
    let mut front = vec![entry(State::Dropped)];
    front.extend(versions_of(random, point, 2, Random::bytes, absent));
    let mut own = short_list_of(random, set, point);
    spoil(point, &mut own);
    forced(whole(random, of, &[front, entries, own].concat()))
}

/// A dependency that has a reason: ill-formed, not found, too late in time, or with a newer anchor.
const SPOILED: [fn(Point) -> State; 4] = [
    |point| State::IllFormed(point.id, 3),
    |point| State::NotFound(point.id),
    |point| State::Valid(Point { time: point.time + (1 << 40), ..point }),
    |point| State::Valid(Point { anchor_proof: to_round(ROUND, &point), ..point }),
];

/// The link to a proof, to another of this round.
fn to_round(round: u32, point: &Point) -> AnchorLink {
    AnchorLink { to: Some(Id { round, ..point.id }), ..point.anchor_proof }
}

/// All dependencies get reasons. The target of the link to a proof has one, since it is none; the sources of both links don't carry on
/// what they should, nor does the trigger.
fn spoil(point: &Point, list: &mut [Entry]) {
    let mut others = 0;
    for entry in list.iter_mut().filter(|entry| entry.indirect.is_none()) {
        let Some(dependency) = entry.state.point().cloned() else { continue };
        let id = dependency.id;
        let is_source = |link: &AnchorLink| id.round == ROUND - 1 && id.author == link.peer;
        entry.state = if is_source(&point.anchor_proof) {
            State::Valid(Point { anchor_time: dependency.anchor_time + 1, ..dependency })
        } else if is_source(&point.anchor_trigger) {
            State::Valid(Point { anchor_trigger: dependency.anchor_proof, ..dependency })
        } else if point.anchor_trigger.to == Some(id) {
            let anchor_proof = to_round(id.round, &dependency);
            State::Valid(Point { role: PointRole::AnchorTrigger, anchor_proof, ..dependency })
        } else if point.anchor_proof.to == Some(id) {
            continue;
        } else {
            others += 1;
            SPOILED[others % SPOILED.len()](dependency)
        };
    }
}
