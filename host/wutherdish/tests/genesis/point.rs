//! A genesis point, and what a call is given with it.

use wutherdish::lent::{ANSWER, PEER_BUFFER};
use wutherdish::{Digest, PeerId, Point, PointId, PointRole, Schedule, Settings};

pub const FILL: u8 = 0xA5;
pub const ROUND: u32 = 10;
pub const AUTHOR: PeerId = PeerId([7; 32]);
pub const OTHER: PeerId = PeerId([8; 32]);

/// What a call is given.
pub struct Call {
    pub settings: Vec<u8>,
    pub schedule: Vec<u8>,
    pub record: Vec<u8>,
    pub peers: Vec<u8>,
    pub answer: [u8; ANSWER],
}

impl Call {
    pub fn new(point: &Point) -> Self {
        Self {
            settings: settings(ROUND),
            schedule: schedule(&[AUTHOR]),
            record: record(point),
            peers: vec![FILL; PEER_BUFFER],
            answer: [FILL; ANSWER],
        }
    }
}

pub fn settings(genesis_round: u32) -> Vec<u8> {
    let settings = Settings {
        genesis_round,
        genesis_digest: Digest([9; 32]),
        payload_batch_bytes: 1_000,
        sticky_anchors: 0,
        clock_skew_millis: 500,
        commit_history_rounds: 1,
    };
    settings.to_bytes().to_vec()
}

pub fn schedule(peers: &[PeerId]) -> Vec<u8> {
    Schedule::new(ROUND).span(ROUND, peers.iter().copied()).to_bytes().expect("one span")
}

pub fn record(point: &Point) -> Vec<u8> {
    point.to_bytes().expect("short maps")
}

pub fn genesis() -> Point {
    let id = PointId { round: ROUND, digest: Digest([9; 32]), author: AUTHOR };
    Point::new(id, 1_000, 1_000).include(AUTHOR, Digest([0; 32])).role(PointRole::Genesis)
}

/// In another round.
pub fn in_round(round: u32) -> Point {
    let point = genesis();
    Point { id: PointId { round, ..point.id }, ..point }
}

/// With another digest.
pub fn false_genesis() -> Point {
    let point = genesis();
    Point { id: PointId { digest: Digest([8; 32]), ..point.id }, ..point }
}
