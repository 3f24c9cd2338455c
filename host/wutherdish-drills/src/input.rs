//! Feeds and cases, laid out from values.

use wutherdish::lent::PEER_BUFFER;
use wutherdish::{BuildError, Point};

use crate::world::World;
use crate::{Answer, Drill, Input};

/// A feed that is being written.
pub struct Feed(Vec<u8>);

impl Feed {
    pub fn new(world: &World) -> Self {
        Self([&world.settings.to_bytes()[..], &written(world.schedule.to_bytes())].concat())
    }

    /// With one more point, whose author does not lead its round.
    pub fn offer(self, point: &Point) -> Self {
        self.with(0, point)
    }

    /// With one more point, whose author leads its round.
    pub fn offer_of_leader(self, point: &Point) -> Self {
        self.with(1, point)
    }

    /// With more points, none by a leader.
    pub fn offer_all<const N: usize>(self, points: [Point; N]) -> Self {
        points.iter().fold(self, Self::offer)
    }

    /// Without its last byte.
    pub fn cut(mut self) -> Self {
        self.0.pop();
        self
    }

    pub fn drill(self, name: &'static str, what: &'static str, answer: Answer) -> Drill {
        Drill { name, what, input: Input::Feed(self.0), answer }
    }

    fn with(mut self, leader: u8, point: &Point) -> Self {
        self.0.push(leader);
        self.0.extend(written(point.to_bytes()));
        self
    }
}

/// A case of verifying with a peer buffer of this length.
pub fn verify(world: &World, point: &Point, peer_buffer: u32) -> Input {
    let (schedule, record) = (written(world.schedule.to_bytes()), written(point.to_bytes()));
    case(1, &[&world.settings.to_bytes(), &schedule, &record, &peer_buffer.to_le_bytes()])
}

/// A case of judging, where n of the point's rounds are in the DAG; its author does not lead its round.
pub fn judge(world: &World, point: &Point, presence: u8, list: &[u8]) -> Input {
    judging(2, world, point, presence, list, &[])
}

/// The same with a trail of this many bytes.
pub fn judge_with_trail(world: &World, point: &Point, presence: u8, list: &[u8], trail: u32) -> Input {
    judging(18, world, point, presence, list, &[&trail.to_le_bytes()])
}

/// A case that asks what the network can force, with an output of this many bytes.
pub fn force(world: &World, point: &Point, presence: u8, list: &[u8], output: u32) -> Input {
    let (settings, schedule) = (world.settings.to_bytes(), written(world.schedule.to_bytes()));
    let record = written(point.to_bytes());
    case(19, &[&settings, &schedule, &record, &[0, presence], list, &output.to_le_bytes()])
}

fn judging(kind: u8, world: &World, point: &Point, presence: u8, list: &[u8], more: &[&[u8]]) -> Input {
    let (settings, schedule) = (world.settings.to_bytes(), written(world.schedule.to_bytes()));
    let (record, peer_buffer) = (written(point.to_bytes()), (PEER_BUFFER as u32).to_le_bytes());
    let blobs = [&settings[..], &schedule, &record, &[0, presence], list, &peer_buffer];
    case(kind, &[&blobs, more].concat())
}

/// A case of converting a point's record from pairs to columns with an output of this length.
pub fn convert(point: &Point, output: impl Fn(u32) -> u32) -> Input {
    let record = written(point.to_bytes());
    case(17, &[&[0], &record, &output(record.len() as u32).to_le_bytes()])
}

/// A case of writing a point whose includes name each of their peers twice. The parts that are handed over are what the fields of
/// its record hold, with zeros where a record has no target, seq_no and is_last.
pub fn write_twice(point: &Point) -> Input {
    let record = written(point.to_bytes());
    let mut parts = contents(&record);
    let (peers, digests) = parts[2].split_at(parts[2].len() / 2);
    parts[2] = [peers, peers, digests, digests].concat();
    for (part, length) in [(5, 102), (6, 102), (7, 3)] {
        parts[part].resize(length, 0);
    }
    let output = (record.len() as u32 + 64).to_le_bytes().to_vec();
    case(16, &parts.iter().chain([&output]).map(|part| &part[..]).collect::<Vec<_>>())
}

/// What the fields of a record hold.
fn contents(record: &[u8]) -> Vec<Vec<u8>> {
    let (mut contents, mut rest) = (Vec::new(), record);
    while let [_, low, high, after @ ..] = rest {
        let (content, next) = after.split_at(u16::from_le_bytes([*low, *high]).into());
        contents.push(content.to_vec());
        rest = next;
    }
    contents
}

fn case(kind: u8, blobs: &[&[u8]]) -> Input {
    let mut bytes = vec![kind, blobs.len() as u8];
    for blob in blobs {
        bytes.extend((blob.len() as u32).to_le_bytes());
        bytes.extend(*blob);
    }
    Input::Case(bytes)
}

/// What a builder wrote. No drill has over 255 peers in a map, over four spans or two of one round: it can't fail.
pub fn written(bytes: Result<Vec<u8>, BuildError>) -> Vec<u8> {
    bytes.expect("a drill's values fit into document 01's bytes")
}
