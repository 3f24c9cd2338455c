//! Points that pass verification, with full maps, and lists by which they are valid.

use cases::random::Random;
use oracle::value::{
    AnchorLink, AnchorStageRole, Digest, Entry, Id, Peer, Point, PointRole, Schedule, Settings, Span, State, Through,
};
use oracle::write;

pub const GENESIS: u32 = 100;
pub const ROUND: u32 = 110;
pub const ANCHOR_TIME: u64 = 1_700_000_000_000;

/// Settings, a schedule of one set, and records of points of that set.
pub struct Bytes {
    pub settings: Vec<u8>,
    pub schedule: Vec<u8>,
    pub records: Vec<Vec<u8>>,
}

/// As many records as `points`, in a set of as many peers as `peers`, at least four.
pub fn bytes(peers: usize, points: usize) -> Bytes {
    let random = &mut Random::new(peers as u64, 0);
    let set = set(random, peers);
    let point = |place| {
        let trigger = id(random, &set, ROUND - 4, place + 1);
        let judged = id(random, &set, ROUND, place);
        write::record(&full(random, &set, judged, None, trigger))
    };
    let records = (0..points).map(point).collect();
    with_records(random, set, records)
}

/// The same with a list for each record.
pub fn bytes_with_lists(peers: usize, points: usize) -> (Bytes, Vec<Vec<u8>>) {
    let random = &mut Random::new(peers as u64, 1);
    let set = set(random, peers);
    let judged = (0..points).map(|place| with_list(random, &set, place));
    let (records, lists) = judged.map(|(point, list)| (write::record(&point), write::list(&list))).unzip();
    (with_records(random, set, records), lists)
}

pub fn set(random: &mut Random, peers: usize) -> Vec<Peer> {
    let mut set: Vec<Peer> = (0..peers).map(|_| random.bytes()).collect();
    set.sort_unstable();
    set
}

pub fn settings(random: &mut Random) -> Settings {
    Settings {
        genesis_round: GENESIS,
        genesis_digest: random.bytes(),
        payload_batch_bytes: 786_432,
        sticky_anchors: 3,
        clock_skew_millis: 5_000,
        commit_history_rounds: 21,
    }
}

pub fn with_records(random: &mut Random, set: Vec<Peer>, records: Vec<Vec<u8>>) -> Bytes {
    let settings = settings(random);
    let schedule = Schedule { spans: vec![Span { first: GENESIS, peers: set }], last_known: ROUND + 4 };
    Bytes { settings: write::settings(&settings), schedule: write::schedule(&schedule), records }
}

fn id(random: &mut Random, set: &[Peer], round: u32, place: usize) -> Id {
    Id { round, digest: random.bytes(), author: set[place * 37 % set.len()] }
}

/// All of the set included, all but the author witnessed and in evidence. The link to a proof is direct if none is named.
pub fn full(random: &mut Random, set: &[Peer], id: Id, proof: Option<Id>, trigger: Id) -> Point {
    let others: Vec<Peer> = set.iter().filter(|peer| **peer != id.author).copied().collect();
    Point {
        id,
        payload_len: 3,
        payload_bytes: 70_000,
        includes: pairs(random, set),
        witness: pairs(random, &others),
        anchor_proof: AnchorLink { through: Through::Includes, peer: random.pick(&others), to: proof },
        anchor_trigger: AnchorLink { through: Through::Witness, peer: random.pick(&others), to: Some(trigger) },
        evidence: others,
        role: PointRole::Regular,
        time: ANCHOR_TIME + u64::from(id.round),
        anchor_time: ANCHOR_TIME,
    }
}

/// A point, and a list by which it is valid.
fn with_list(random: &mut Random, set: &[Peer], place: usize) -> (Point, Vec<Entry>) {
    let point = judged(random, set, place);
    let list = list_of(random, set, &point);
    (point, list)
}

/// A point with full maps and two indirect links.
pub fn judged(random: &mut Random, set: &[Peer], place: usize) -> Point {
    let [trigger, proof, judged] = [105, 106, ROUND].map(|round| id(random, set, round, place));
    full(random, set, judged, Some(proof), trigger)
}

/// A list by which a point with two indirect links is valid: all its dependencies in any order, which link to its own
/// proof and trigger, then that proof and that trigger.
pub fn list_of(random: &mut Random, set: &[Peer], point: &Point) -> Vec<Entry> {
    let [Some(proof), Some(trigger)] = [point.anchor_proof.to, point.anchor_trigger.to] else { return Vec::new() };
    let older = id(random, set, 101, 0);
    let mut dependencies: Vec<Id> = point.dependencies(Through::Includes).collect();
    dependencies.extend(point.dependencies(Through::Witness));
    random.shuffle(&mut dependencies);
    let direct = dependencies.into_iter().map(|id| valid(None, full(random, set, id, Some(proof), trigger)));
    let mut list: Vec<Entry> = direct.collect();
    let targets = [
        (AnchorStageRole::Proof, proof, PointRole::AnchorProof { seq_no: 0, is_last: false }),
        (AnchorStageRole::Trigger, trigger, PointRole::AnchorTrigger),
    ];
    for (stage, id, role) in targets {
        list.push(valid(Some(stage), Point { role, ..full(random, set, id, Some(older), older) }));
    }
    list
}

/// The previous point has to be certified, the others may be.
fn valid(indirect: Option<AnchorStageRole>, point: Point) -> Entry {
    Entry { indirect, certified: true, first_valid: true, state: State::Valid(point) }
}

fn pairs(random: &mut Random, peers: &[Peer]) -> Vec<(Peer, Digest)> {
    peers.iter().map(|peer| (*peer, random.bytes())).collect()
}
