//! Lists in which entries give reasons, to be judged with a trail.

use cases::random::Random;
use oracle::PEER_BUFFER;
use oracle::file::Case;
use oracle::value::{AnchorLink, Digest, Entry, Id, Peer, Point, PointRole, State, Through};
use oracle::write;

use crate::points::{ANCHOR_TIME, Bytes, ROUND, judged, list_of, set, with_records};

/// What the entries of a list give.
#[derive(Clone, Copy)]
pub struct Faults {
    pub name: &'static str,
    change: fn(&mut Random, &mut Point, &mut Vec<Entry>),
}

/// A time that is later than any that the settings let pass.
const LATE: u64 = ANCHOR_TIME + 1_000_000;

pub const FULL: [Faults; 9] = [
    Faults { name: "no reason", change: |_, _, _| {} },
    Faults { name: "each entry not found", change: |_, _, list| states(list, State::NotFound) },
    Faults { name: "each entry ill-formed", change: |_, _, list| states(list, |id| State::IllFormed(id, 3)) },
    Faults { name: "each entry too late", change: |_, _, list| points(list, |point| point.time = LATE) },
    Faults { name: "three reasons an entry", change: |_, _, list| points(list, late_and_newer) },
    Faults { name: "all reasons that an entry can give", change: |_, point, list| all_reasons(point, list) },
    Faults {
        name: "the last entry not found",
        change: |_, _, list| {
            let last = list.iter().rposition(|entry| entry.indirect.is_none()).unwrap_or(0);
            states(&mut list[last..=last], State::NotFound);
        },
    },
    Faults { name: "the first entry not found", change: |_, _, list| states(&mut list[..1], State::NotFound) },
    Faults {
        name: "the indirect entries too late",
        change: |_, _, list| {
            let direct = list.partition_point(|entry| entry.indirect.is_none());
            points(&mut list[direct..], |point| point.time = LATE);
        },
    },
];

/// How many rows the trail's call keeps from counting them: where there are more, and no room for certain, it walks a list once more to
/// write them.
pub const KEPT: usize = 256;

/// More rows than are kept. The other entries give none, which judging and the trail's walk tell by a quick test; but a walk reads each
/// record again, which takes half of what judging takes where records are short, whether they give reasons or not.
pub const FIRST_ALONE: Faults = Faults {
    name: "three reasons of each of the first 86 entries alone, short records of 253 peers",
    change: |random, point, list| {
        link_to_prev(point, list);
        points(list, |dependency| shorten(random, dependency));
        let first = list.len().min(KEPT / 3 + 1);
        points(&mut list[..first], late_and_newer);
    },
};

/// A point with full maps of so many peers, and a list of all its dependencies and targets in which entries give reasons.
pub fn full(faults: Faults, peers: usize, place: usize) -> Case {
    let random = &mut Random::new(peers as u64, 3 + place as u64);
    let set = set(random, peers);
    let mut point = judged(random, &set, place);
    let mut list = list_of(random, &set, &point);
    (faults.change)(random, &mut point, &mut list);
    case(random, set, &point, &list)
}

/// An entry of a point of the author in the round before.
type Version = fn(Id) -> Entry;

/// Names of lists of such entries, and how these are made; each gives one reason.
pub const VERSIONS: [(&str, Version); 4] = [
    ("certified and not found", |id| entry(true, State::NotFound(id))),
    ("ill-formed", |id| entry(false, State::IllFormed(id, 3))),
    ("invalid, the shortest records", |id| entry(false, State::Invalid(shortest(id), 3))),
    ("first valid, the shortest records", |id| Entry { first_valid: true, ..entry(true, State::Valid(shortest(id))) }),
];

/// A point without its author in the includes, in a set of four, and after so many versions the entries of its dependencies. The
/// versions' digests rise, or come in any order.
pub fn versions(of: Version, count: usize, rising: bool) -> Case {
    let random = &mut Random::new(count as u64, 4);
    let set = set(random, 4);
    let mut point = judged(random, &set, 0);
    point.includes.retain(|(peer, _)| *peer != point.id.author);
    point.evidence.clear();
    let mut digests: Vec<Digest> = (0..count).map(|_| random.bytes()).collect();
    if rising {
        digests.sort_unstable();
    }
    let author = point.id.author;
    let mut list: Vec<Entry> = digests.into_iter().map(|digest| of(Id { round: ROUND - 1, digest, author })).collect();
    list.extend(list_of(random, &set, &point));
    case(random, set, &point, &list)
}

fn case(random: &mut Random, set: Vec<Peer>, point: &Point, list: &[Entry]) -> Case {
    let Bytes { settings, schedule, .. } = with_records(random, set, Vec::new());
    let (record, list) = (write::record(point), write::list(list));
    Case::Judge { settings, schedule, record, leader: 0, presence: 3, list, peer_buffer: PEER_BUFFER }
}

fn entry(certified: bool, state: State) -> Entry {
    Entry { indirect: None, certified, first_valid: false, state }
}

fn shortest(id: Id) -> Point {
    let to = Id { round: ROUND - 9, ..id };
    let link = AnchorLink { through: Through::Includes, peer: id.author, to: Some(to) };
    Point {
        id,
        payload_len: 0,
        payload_bytes: 0,
        includes: Vec::new(),
        witness: Vec::new(),
        evidence: Vec::new(),
        anchor_proof: link,
        anchor_trigger: link,
        role: PointRole::Regular,
        time: ANCHOR_TIME,
        anchor_time: ANCHOR_TIME,
    }
}

fn states(list: &mut [Entry], state: fn(Id) -> State) {
    for entry in list {
        entry.state = entry.state.id().map_or(State::Dropped, |id| state(*id));
    }
}

fn points(list: &mut [Entry], mut change: impl FnMut(&mut Point)) {
    for entry in list {
        if let State::Valid(point) = &mut entry.state {
            change(point);
        }
    }
}

/// Too late, and with a newer proof and a newer trigger than the point that is judged.
fn late_and_newer(point: &mut Point) {
    point.time = LATE;
    point.anchor_time += 1;
    let to = Some(Id { round: ROUND, ..point.id });
    point.anchor_proof.to = to;
    point.anchor_trigger.to = to;
}

/// The previous point gives nine reasons, as many as one entry can; the others give three.
fn all_reasons(point: &mut Point, list: &mut Vec<Entry>) {
    link_to_prev(point, list);
    points(list, late_and_newer);
}

/// Both links of the point are direct ones to its previous point.
fn link_to_prev(point: &mut Point, list: &mut Vec<Entry>) {
    list.retain(|entry| entry.indirect.is_none());
    (point.anchor_proof, point.anchor_trigger) = direct_links(point.id.author);
    point.role = PointRole::Regular;
}

/// Both links are direct ones through the only row.
fn shorten(random: &mut Random, point: &mut Point) {
    let row = (random.bytes(), random.bytes());
    (point.includes, point.witness, point.evidence) = (vec![row], Vec::new(), Vec::new());
    (point.anchor_proof, point.anchor_trigger) = direct_links(row.0);
}

fn direct_links(peer: Peer) -> (AnchorLink, AnchorLink) {
    let link = AnchorLink { through: Through::Includes, peer, to: None };
    (link, link)
}
