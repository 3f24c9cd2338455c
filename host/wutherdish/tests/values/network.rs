//! A small network: a genesis point of round 11 and four peers above it.

use wutherdish::AnchorStageRole::{Proof, Trigger};
use wutherdish::{AnchorLink, Digest, IndirectLink, PeerId, Point, PointId, PointRole, Schedule, Settings, Through};

pub const GENESIS: u32 = 11;
pub const FOUNDER: PeerId = PeerId([1; 32]);
pub const PEERS: [PeerId; 4] = [PeerId([2; 32]), PeerId([3; 32]), PeerId([4; 32]), PeerId([5; 32])];

pub fn settings() -> Settings {
    Settings {
        genesis_round: GENESIS,
        genesis_digest: Digest([9; 32]),
        payload_batch_bytes: 1_000,
        sticky_anchors: 0,
        clock_skew_millis: 500,
        commit_history_rounds: 20,
    }
}

pub fn schedule() -> Vec<u8> {
    Schedule::new(1_000).span(GENESIS, [FOUNDER]).span(GENESIS + 1, PEERS).to_bytes().expect("two spans")
}

pub fn record(point: &Point) -> Vec<u8> {
    point.to_bytes().expect("short maps")
}

pub fn genesis() -> Point {
    let id = PointId { round: GENESIS, digest: settings().genesis_digest, author: FOUNDER };
    Point::new(id, 1_000, 1_000).include(FOUNDER, Digest([0; 32])).role(PointRole::Genesis)
}

/// A point right above genesis; its author is the peer at this place.
pub fn first(place: usize) -> Point {
    let author = PEERS[place];
    let link = AnchorLink::Direct(Through::Includes(FOUNDER));
    let id = PointId { round: GENESIS + 1, digest: Digest(author.0.map(|byte| byte + 16)), author };
    Point::new(id, 2_000, 1_000).include(FOUNDER, genesis().id.digest).link(Proof, link).link(Trigger, link)
}

/// A point of the round after, by the first peer, that includes these points.
pub fn second(included: &[&Point]) -> Point {
    let author = PEERS[0];
    let through = Through::Includes(author);
    let link = AnchorLink::Indirect(IndirectLink { to: genesis().id, through });
    let id = PointId { round: GENESIS + 2, digest: Digest([40; 32]), author };
    let point = Point::new(id, 3_000, 1_000).link(Proof, link).link(Trigger, link);
    let point = included.iter().fold(point, |point, other| point.include(other.id.author, other.id.digest));
    point.witness(FOUNDER, genesis().id.digest).evidence(PEERS[1]).evidence(PEERS[2])
}
