//! Document 01's edges P1 to P10, as cases with the answer that it gives.

use oracle::Answer;
use oracle::PEER_BUFFER;
use oracle::answer::{ILL_FORMED, INCLUDES, INVALID, NONE, TRANS_INVALID, TRIGGER, VALID};
use oracle::file::Case;
use oracle::value::{
    AnchorLink, AnchorStageRole, Digest, Entry, Id, Peer, Point, PointRole, Schedule, Settings, Span, State, Through,
};

use crate::scene::Scene;

/// One line of an edge: what is asked, the case, and what document 01 says.
pub struct Edge {
    pub name: &'static str,
    pub what: String,
    pub case: Case,
    expected: Expected,
}

#[derive(Clone, Copy, Debug)]
pub enum Expected {
    Valid,
    /// Reason and first number.
    IllFormed(u8, u32),
    /// StructureIssue and map.
    Structure(u32, u8),
    /// Reason and role.
    Invalid(u8, u8),
    /// Trans-invalid with this reason of the root.
    Record(u8),
}

use Expected::{IllFormed, Invalid, Record, Structure, Valid};

impl Edge {
    pub fn holds(&self, answer: &Answer) -> bool {
        let Answer::Verdict(verdict) = answer else { return false };
        let (kind, reason) = (verdict.kind, verdict.reason);
        match self.expected {
            Valid => kind == VALID,
            IllFormed(number, first) => (kind, reason, verdict.first) == (ILL_FORMED, number, first),
            Structure(issue, map) => (kind, reason, verdict.first, verdict.map) == (ILL_FORMED, 7, issue, map),
            Invalid(number, role) => (kind, reason, verdict.role) == (INVALID, number, role),
            Record(root) => (kind, verdict.root_reason) == (TRANS_INVALID, root),
        }
    }

    pub fn expected(&self) -> String {
        format!("{:?}", self.expected)
    }
}

pub fn all() -> Vec<Edge> {
    let mut edges = Edges(Vec::new());
    edges.wave_link();
    edges.sequence_zero();
    edges.evidence_and_author();
    edges.anchor_time();
    edges.sticky_anchors();
    edges.window();
    edges.ties();
    edges.last_reason();
    edges.dropped();
    edges.skew();
    edges.0
}

struct Edges(Vec<Edge>);

const ROUND: u32 = 100;
const PEERS: [Peer; 4] = [[1; 32], [2; 32], [3; 32], [4; 32]];
const AUTHOR: Peer = PEERS[0];

fn digest(round: u32, peer: Peer) -> Digest {
    let mut digest = peer;
    digest[..4].copy_from_slice(&round.to_be_bytes());
    digest
}

fn id(round: u32, author: Peer) -> Id {
    Id { round, digest: digest(round, author), author }
}

fn through_includes(peer: Peer, to: Option<Id>) -> AnchorLink {
    AnchorLink { through: Through::Includes, peer, to }
}

/// A regular point whose links lead to `proof` and `trigger` through the second peer.
fn point(of: Id, proof: Id, trigger: Id) -> Point {
    Point {
        id: of,
        payload_len: 0,
        payload_bytes: 0,
        includes: PEERS.map(|peer| (peer, digest(of.round - 1, peer))).to_vec(),
        witness: Vec::new(),
        evidence: vec![PEERS[1], PEERS[2]],
        anchor_proof: through_includes(PEERS[1], Some(proof)),
        anchor_trigger: through_includes(PEERS[1], Some(trigger)),
        role: PointRole::Regular,
        time: 1_000,
        anchor_time: 500,
    }
}

/// Four peers, a regular point at `round`, its four includes valid: the point is valid.
fn scene(round: u32, back_to_proof: u32) -> Scene {
    let (proof, trigger) = (id(round - back_to_proof, PEERS[1]), id(round - back_to_proof, PEERS[2]));
    let entries = PEERS.map(|peer| {
        let mut dependency = point(id(round - 1, peer), proof, trigger);
        dependency.time = 900;
        Entry { indirect: None, certified: peer == AUTHOR, first_valid: true, state: State::Valid(dependency) }
    });
    Scene {
        settings: Settings {
            genesis_round: 10,
            genesis_digest: [9; 32],
            payload_batch_bytes: 1_000,
            sticky_anchors: 3,
            clock_skew_millis: 500,
            commit_history_rounds: 21,
        },
        schedule: Schedule { spans: vec![Span { first: 11, peers: PEERS.to_vec() }], last_known: 1_000 },
        point: point(id(round, AUTHOR), proof, trigger),
        leader: 0,
        presence: 3,
        entries: entries.to_vec(),
        peer_buffer: PEER_BUFFER,
    }
}

fn dependency(scene: &mut Scene, place: usize) -> &mut Point {
    match &mut scene.entries[place].state {
        State::Valid(point) => point,
        _ => unreachable!("scenes start with valid entries"),
    }
}

/// A genesis point with one peer.
fn genesis(anchor_time: u64) -> Scene {
    let mut scene = scene(ROUND, 5);
    scene.settings.genesis_round = ROUND;
    scene.schedule.spans = vec![Span { first: ROUND, peers: vec![AUTHOR] }];
    let own = through_includes(AUTHOR, None);
    scene.point = Point {
        id: Id { digest: [9; 32], ..scene.point.id },
        includes: vec![(AUTHOR, [0; 32])],
        evidence: Vec::new(),
        anchor_proof: own,
        anchor_trigger: own,
        role: PointRole::Genesis,
        anchor_time,
        ..scene.point
    };
    scene.entries.clear();
    scene
}

/// A proof of this number after the author's own proof of the number before.
fn sticky(seq_no: u8, is_last: bool) -> Scene {
    let mut scene = scene(ROUND, 5);
    scene.point.role = PointRole::AnchorProof { seq_no, is_last };
    scene.point.anchor_proof = through_includes(AUTHOR, None);
    scene.point.anchor_trigger = through_includes(AUTHOR, None);
    scene.point.anchor_time = 900;
    dependency(&mut scene, 0).role = PointRole::AnchorProof { seq_no: seq_no - 1, is_last: false };
    scene
}

/// A trans-invalid entry with its root's round and reason.
fn soil(scene: &mut Scene, place: usize, round: u32, reason: u8) {
    let point = dependency(scene, place).clone();
    scene.entries[place].state = State::TransInvalid(point, id(round, PEERS[3]), reason);
}

fn not_found(scene: &mut Scene, place: usize) {
    let id = dependency(scene, place).id;
    scene.entries[place].state = State::NotFound(id);
}

impl Edges {
    fn add(&mut self, name: &'static str, what: impl Into<String>, scene: &Scene, expected: Expected) {
        self.0.push(Edge { name, what: what.into(), case: scene.judge(), expected });
    }

    /// A regular point of the leader with a previous point may not link far back.
    fn wave_link(&mut self) {
        for (back, expected) in [(3, Valid), (4, IllFormed(16, 1))] {
            let mut scene = scene(ROUND, back);
            scene.leader = 1;
            self.add("P1", format!("indirect link {back} rounds back"), &scene, expected);
        }
        let mut scene = scene(ROUND, 5);
        scene.leader = 1;
        scene.point.anchor_proof = through_includes(PEERS[1], None);
        dependency(&mut scene, 1).role = PointRole::AnchorProof { seq_no: 0, is_last: true };
        self.add("P1", "direct link", &scene, Valid);
    }

    /// As an indirect target, in both roles; and as the judged point's own role.
    fn sequence_zero(&mut self) {
        let stages = [
            (0, AnchorStageRole::Proof, Valid),
            (0, AnchorStageRole::Trigger, Invalid(14, TRIGGER)),
            (1, AnchorStageRole::Proof, Valid),
            (1, AnchorStageRole::Trigger, Valid),
        ];
        for (seq_no, role, expected) in stages {
            let mut scene = scene(ROUND, 5);
            let proof = scene.point.anchor_proof.to.expect("indirect");
            scene.point.anchor_trigger.to = Some(proof);
            for place in 0..4 {
                dependency(&mut scene, place).anchor_trigger.to = Some(proof);
            }
            let mut target = point(proof, id(90, PEERS[1]), id(90, PEERS[2]));
            target.role = PointRole::AnchorProof { seq_no, is_last: false };
            let state = State::Valid(target);
            scene.entries.push(Entry { indirect: Some(role), certified: false, first_valid: true, state });
            self.add("P2", format!("seq_no {seq_no} as the target of the {role:?} link"), &scene, expected);
        }
        for (seq_no, expected) in [(0, Valid), (1, Structure(4, NONE))] {
            let mut scene = scene(ROUND, 5);
            scene.leader = 1;
            scene.point.anchor_time = 900;
            scene.point.role = PointRole::AnchorProof { seq_no, is_last: false };
            self.add("P2", format!("seq_no {seq_no} without a trigger's proof link"), &scene, expected);
        }
    }

    fn evidence_and_author(&mut self) {
        let mut empty = scene(ROUND, 5);
        empty.point.evidence.clear();
        self.add("P3", "evidence empty, author included", &empty, Structure(3, INCLUDES));
        let mut reversed = scene(ROUND, 5);
        reversed.point.includes.retain(|(peer, _)| *peer != AUTHOR);
        reversed.entries.remove(0);
        self.add("P3", "evidence given, author not included", &reversed, Structure(3, INCLUDES));
    }

    fn anchor_time(&mut self) {
        let mut equal = scene(ROUND, 5);
        equal.point.anchor_time = equal.point.time;
        self.add("P4", "equal times above genesis", &equal, Structure(6, NONE));
        self.add("P4", "equal times at genesis", &genesis(1_000), Valid);
        self.add("P4", "a lower anchor time at genesis", &genesis(999), Structure(6, NONE));
    }

    fn sticky_anchors(&mut self) {
        self.add("P5", "seq_no 4 of 3", &sticky(4, false), IllFormed(8, 4));
        self.add("P5", "seq_no 3 not last", &sticky(3, false), IllFormed(9, 0));
        self.add("P5", "seq_no 2 last", &sticky(2, true), IllFormed(9, 0));
        self.add("P5", "seq_no 3 last", &sticky(3, true), Valid);
        self.add("P5", "seq_no 2 not last", &sticky(2, false), Valid);
    }

    fn window(&mut self) {
        for (prev_round, expected) in [(110, Record(4)), (111, Valid)] {
            let mut scene = scene(prev_round + 1, 5);
            soil(&mut scene, 3, 90, 4);
            self.add("P6", format!("root 90, history 21, r-1 = {prev_round}"), &scene, expected);
        }
    }

    fn ties(&mut self) {
        for (first, second) in [(2, 6), (6, 2)] {
            let mut scene = scene(ROUND, 5);
            soil(&mut scene, 1, 95, first);
            soil(&mut scene, 2, 95, second);
            self.add("P7", format!("equal rounds, reason {first} then {second}"), &scene, Record(6));
        }
    }

    fn last_reason(&mut self) {
        let mut scene = scene(ROUND, 5);
        dependency(&mut scene, 2).time = 1_501;
        not_found(&mut scene, 3);
        self.add("P8", "entries giving 11 then 19", &scene, Invalid(19, NONE));
    }

    fn dropped(&mut self) {
        let mut scene = scene(ROUND, 5);
        dependency(&mut scene, 2).time = 1_501;
        scene.entries[3].state = State::Dropped;
        self.add("P9", "11 then dropped", &scene, Invalid(11, NONE));
        scene.entries.swap(2, 3);
        self.add("P9", "dropped then 11", &scene, Invalid(3, NONE));
    }

    fn skew(&mut self) {
        for (time, expected) in [(1_500, Valid), (1_501, Invalid(11, NONE))] {
            let mut scene = scene(ROUND, 5);
            dependency(&mut scene, 2).time = time;
            self.add("P10", format!("time 1,000, skew 500, an entry of {time}"), &scene, expected);
        }
    }
}
