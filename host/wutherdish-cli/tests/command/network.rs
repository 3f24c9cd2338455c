//! Feeds of a network in which every peer includes every point of the round before.

use wutherdish::AnchorStageRole::{Proof, Trigger};
use wutherdish::{AnchorLink, Digest, IndirectLink, PeerId, Point, PointId, PointRole, Schedule, Settings, Through};

const GENESIS_ROUND: u32 = 10;
/// Makes the genesis point.
const FOUNDER: PeerId = PeerId([0xfe; 32]);

/// Who takes part, and how points are called.
pub struct Network {
    /// The peers above the genesis point.
    pub peers: Vec<PeerId>,
    /// The digest of a peer's point in a round; peers are counted from 0.
    pub digest: fn(u32, usize) -> [u8; 32],
}

impl Network {
    /// A feed of the genesis point and all points of the rounds above it. All of them are valid.
    pub fn feed(&self, rounds: u32) -> Vec<u8> {
        let (genesis, last) = (self.genesis(), GENESIS_ROUND + rounds);
        let settings = Settings {
            genesis_round: GENESIS_ROUND,
            genesis_digest: genesis.id.digest,
            payload_batch_bytes: 1_000,
            sticky_anchors: 0,
            clock_skew_millis: 500,
            commit_history_rounds: 20,
        };
        let schedule =
            Schedule::new(last + 10).span(GENESIS_ROUND, [FOUNDER]).span(GENESIS_ROUND + 1, self.peers.iter().copied());
        let places = (GENESIS_ROUND + 1..=last).flat_map(|round| (0..self.peers.len()).map(move |peer| (round, peer)));
        let points = places.map(|(round, peer)| self.point(round, peer));
        let mut feed = [&settings.to_bytes()[..], &schedule.to_bytes().expect("it can be written")].concat();
        for point in [genesis].into_iter().chain(points) {
            feed.push(0);
            feed.extend(point.to_bytes().expect("it can be written"));
        }
        feed
    }

    fn id(&self, round: u32, peer: usize) -> PointId {
        let author = if round == GENESIS_ROUND { FOUNDER } else { self.peers[peer] };
        PointId { round, digest: Digest((self.digest)(round, peer)), author }
    }

    fn genesis(&self) -> Point {
        let point = Point::new(self.id(GENESIS_ROUND, 0), 10_000, 10_000);
        point.include(FOUNDER, Digest([0; 32])).role(PointRole::Genesis)
    }

    fn point(&self, round: u32, peer: usize) -> Point {
        let (genesis, author) = (self.id(GENESIS_ROUND, 0), self.peers[peer]);
        let mut point = Point::new(self.id(round, peer), 1_000 * u64::from(round), 10_000);
        if round - 1 == GENESIS_ROUND {
            let link = AnchorLink::Direct(Through::Includes(FOUNDER));
            return point.include(FOUNDER, genesis.digest).link(Proof, link).link(Trigger, link);
        }
        let parents = (0..self.peers.len()).map(|parent| self.id(round - 1, parent));
        point.includes = parents.map(|parent| (parent.author, parent.digest)).collect();
        point.evidence = self.peers.iter().copied().filter(|other| *other != author).collect();
        let link = AnchorLink::Indirect(IndirectLink { to: genesis, through: Through::Includes(author) });
        point.link(Proof, link).link(Trigger, link)
    }
}
