//! Feeds for the program `tally`, whose book has 65,536 bytes: it soon has no room, and is read in each offer all the same.

use cases::random::Random;
use oracle::value::{Digest, Id};
use oracle::write;

use super::{ends_alike, shortest};
use crate::dag::{Dag, feed};
use crate::points::{Bytes, ROUND, set, with_records};

/// A kind of feeds.
pub struct Feed {
    pub name: &'static str,
    pub points: usize,
    make: fn(&mut Random, usize) -> Vec<u8>,
}

pub const FEEDS: [Feed; 4] = [
    Feed {
        name: "typical: the points of 4 peers, round by round",
        points: 20_000,
        make: |_, count| Dag::new(4, count).feed(count),
    },
    Feed {
        name: "the points of 253 peers, longer than the book's room",
        points: 1_000,
        make: |_, count| Dag::new(253, count).feed(count),
    },
    Feed {
        name: "shortest points",
        points: 20_000,
        make: |random, count| shortest_points(random, count, Random::bytes),
    },
    Feed {
        name: "shortest points, digests that end alike",
        points: 20_000,
        make: |random, count| shortest_points(random, count, ends_alike),
    },
];

impl Feed {
    pub fn make(&self, random: &mut Random) -> Vec<u8> {
        (self.make)(random, self.points)
    }
}

fn shortest_points(random: &mut Random, count: usize, digest: fn(&mut Random) -> Digest) -> Vec<u8> {
    let set = set(random, 4);
    let Bytes { settings, schedule, .. } = with_records(random, set, Vec::new());
    let mut record = |_| write::record(&shortest(Id { round: ROUND, digest: digest(random), author: random.bytes() }));
    let records: Vec<_> = (0..count).map(&mut record).collect();
    feed(&settings, &schedule, records.iter().map(|record| &record[..]))
}
