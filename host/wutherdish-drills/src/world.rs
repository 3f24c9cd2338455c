//! A little network: a genesis point of round 10 and a few peers above it.

use wutherdish::AnchorStageRole::{Proof, Trigger};
use wutherdish::{AnchorLink, Digest, IndirectLink, PeerId, Point, PointId, PointRole, Schedule, Settings, Through};

pub const A: PeerId = PeerId([0x0a; 32]);
pub const B: PeerId = PeerId([0x0b; 32]);
pub const C: PeerId = PeerId([0x0c; 32]);
pub const D: PeerId = PeerId([0x0d; 32]);
/// Makes the genesis point where none of the others does.
pub const E: PeerId = PeerId([0x0e; 32]);

pub const GENESIS_ROUND: u32 = 10;
/// The genesis point's time. It is the anchor time of all points that know no later anchor.
pub const GENESIS_TIME: u64 = 10_000;
/// The anchor time of a point that does not inherit it.
pub const WRONG_ANCHOR_TIME: u64 = 9_000;
pub const PAYLOAD_BATCH_BYTES: u32 = 1_000;
const CLOCK_SKEW_MILLIS: u16 = 500;
const COMMIT_HISTORY_ROUNDS: u8 = 20;
const LAST_KNOWN_ROUND: u32 = 30;

/// What the points of a feed have in common.
pub struct World {
    pub settings: Settings,
    pub schedule: Schedule,
    genesis_author: PeerId,
    peers: Vec<PeerId>,
}

impl World {
    /// One peer makes the genesis point, and these the rounds above it.
    pub fn new(genesis_author: PeerId, peers: &[PeerId]) -> Self {
        let settings = Settings {
            genesis_round: GENESIS_ROUND,
            genesis_digest: digest(GENESIS_ROUND, genesis_author, 1),
            payload_batch_bytes: PAYLOAD_BATCH_BYTES,
            sticky_anchors: 0,
            clock_skew_millis: CLOCK_SKEW_MILLIS,
            commit_history_rounds: COMMIT_HISTORY_ROUNDS,
        };
        let schedule = Schedule::new(LAST_KNOWN_ROUND)
            .span(GENESIS_ROUND, [genesis_author])
            .span(GENESIS_ROUND + 1, peers.iter().copied());
        Self { settings, schedule, genesis_author, peers: peers.to_vec() }
    }

    /// A alone, up to the genesis round: nobody is known above it.
    pub fn of_one() -> Self {
        let schedule = Schedule::new(GENESIS_ROUND).span(GENESIS_ROUND, [A]);
        Self { schedule, ..Self::new(A, &[]) }
    }

    /// The fewest peers that can make points above genesis; A makes the genesis point too.
    pub fn of_three() -> Self {
        Self::new(A, &[A, B, C])
    }

    /// With a row of proofs by one leader, up to this seq_no.
    pub fn sticky_anchors(mut self, sticky_anchors: u8) -> Self {
        self.settings.sticky_anchors = sticky_anchors;
        self
    }

    pub fn genesis(&self) -> Point {
        let author = self.genesis_author;
        Point::new(self.genesis_id(), GENESIS_TIME, GENESIS_TIME)
            .include(author, Digest([0; 32]))
            .role(PointRole::Genesis)
    }

    /// A regular point of round 11.
    pub fn first(&self, author: PeerId) -> Point {
        self.point(GENESIS_ROUND + 1, author, &[self.genesis_author])
    }

    /// A regular point that includes these peers' points. Its links lead to the genesis point, through the last of them
    /// where the genesis point is none of them.
    pub fn point(&self, round: u32, author: PeerId, parents: &[PeerId]) -> Point {
        let mut point = Point::new(id(round, author), u64::from(round) * 1_000, GENESIS_TIME);
        point.includes = parents.iter().map(|parent| (*parent, digest(round - 1, *parent, 1))).collect();
        if parents.contains(&author) {
            point.evidence = self.peers.iter().copied().filter(|peer| *peer != author).collect();
        }
        let through = parents.last().copied().unwrap_or(author);
        let above_genesis = round == GENESIS_ROUND + 1;
        let link = if above_genesis { direct(through) } else { self.to_genesis(through) };
        point.link(Proof, link).link(Trigger, link)
    }

    /// A regular point that includes every peer's point.
    pub fn above_all(&self, round: u32, author: PeerId) -> Point {
        self.point(round, author, &self.peers)
    }

    /// A link to the genesis point through a peer's point.
    pub fn to_genesis(&self, through: PeerId) -> AnchorLink {
        indirect(self.genesis_id(), through)
    }

    fn genesis_id(&self) -> PointId {
        id(GENESIS_ROUND, self.genesis_author)
    }
}

/// In hex it begins with round, author and version: 120a0001 is A's first version in round 12.
pub fn digest(round: u32, author: PeerId, version: u8) -> Digest {
    let decimal = (round / 10 % 10 * 16 + round % 10) as u8;
    Digest(std::array::from_fn(|place| [decimal, author.0[0], 0, version][place % 4]))
}

/// The id of a peer's first version in a round.
pub fn id(round: u32, author: PeerId) -> PointId {
    PointId { round, digest: digest(round, author, 1), author }
}

/// The same point under another digest: its author's second version.
pub fn second_version(point: Point) -> Point {
    let PointId { round, author, .. } = point.id;
    Point { id: PointId { digest: digest(round, author, 2), ..point.id }, ..point }
}

/// A link to a peer's point of the round before.
pub fn direct(peer: PeerId) -> AnchorLink {
    AnchorLink::Direct(Through::Includes(peer))
}

/// A link further back, through a peer's point of the round before.
pub fn indirect(to: PointId, through: PeerId) -> AnchorLink {
    AnchorLink::Indirect(IndirectLink { to, through: Through::Includes(through) })
}

/// A trigger's proof is its author's previous point.
pub fn trigger(point: Point) -> Point {
    let own = direct(point.id.author);
    point.role(PointRole::AnchorTrigger).link(Proof, own)
}

pub fn proof(point: Point, seq_no: u8, is_last: bool) -> Point {
    point.role(PointRole::AnchorProof { seq_no, is_last })
}
