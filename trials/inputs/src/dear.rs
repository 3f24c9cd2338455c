//! Inputs that cost much for their length, of every call, beside typical ones.

mod clearing;
mod compose;
mod convert;
mod force;
mod judge;
mod offer;
mod spread;
pub mod tally;
mod trail;
mod verify;

use cases::random::Random;
use oracle::file::Case;
use oracle::question::Question;
use oracle::row::Row;
use oracle::value::{AnchorLink, Digest, Id, Peer, Point, PointRole, Through};

use crate::call::{Call, entry_count, judged_list};
use crate::points::{ANCHOR_TIME, GENESIS, judged, set};

/// A kind of inputs.
#[derive(Clone, Copy)]
pub struct Shape {
    pub name: &'static str,
    /// The greatest count that it is made with.
    pub most: usize,
    pub is_typical: bool,
    make: fn(&mut Random, usize) -> Made,
}

/// A call, and how many entries it reads: of its list, of its book, or rows of the record's maps.
pub struct Made {
    pub call: Call,
    pub entries: usize,
}

impl Shape {
    const fn typical(name: &'static str, most: usize, make: fn(&mut Random, usize) -> Made) -> Self {
        Self { name, most, is_typical: true, make }
    }

    const fn dear(name: &'static str, most: usize, make: fn(&mut Random, usize) -> Made) -> Self {
        Self { name, most, is_typical: false, make }
    }

    /// All shapes; those of a call stand together, a typical one first.
    pub fn all() -> Vec<Self> {
        [Self::answered(), Self::asking()].concat()
    }

    /// Those whose answers the oracle gives by judging once at most.
    pub fn answered() -> Vec<Self> {
        let judging = [&verify::SHAPES[..], &judge::SHAPES, &trail::SHAPES].concat();
        let offering = [&offer::SHAPES[..], &spread::SHAPES].concat();
        [judging, offering, convert::SHAPES.to_vec(), compose::SHAPES.to_vec()].concat()
    }

    /// Those for whose answers it judges again for each entry: what clears a point, and what the network can force.
    pub fn asking() -> Vec<Self> {
        [&clearing::SHAPES[..], &force::SHAPES].concat()
    }

    /// Lists to judge by, and those by which the network can force reasons.
    pub fn lists() -> Vec<Self> {
        [&judge::SHAPES[..], &force::SHAPES].concat()
    }

    /// The call of this shape with a count of entries, or of peers where it has full maps; at most `most`.
    pub fn make(&self, random: &mut Random, count: usize) -> Made {
        (self.make)(random, count.min(self.most))
    }
}

impl Made {
    /// Judging by a case's list.
    fn of(case: Case) -> Self {
        let entries = entry_count(&case);
        Self { call: Call::Case(case), entries }
    }

    /// The list that is judged, to another call, which is made of it and of how many entries it has.
    fn to(self, call: fn(Case, usize) -> Call) -> Self {
        let Call::Case(case) = self.call else { unreachable!("the list is judged") };
        Self { call: call(case, self.entries), entries: self.entries }
    }
}

/// Bytes of so many rows an entry, but no more than the list has: all rows fit then, but not for certain, which takes eight bytes more
/// than the list. So the call counts them before it writes any, and has the most to do.
fn room(case: &Case, entries: usize, rows: usize) -> usize {
    (rows * size_of::<Row>() * entries).min(judged_list(case).len())
}

/// What is asked of a case that is judged.
fn question(case: Case) -> Question {
    Question::of(case).expect("a case that is judged")
}

/// A set, and a point of it.
type Of = (Vec<Peer>, Point);

/// A point with full maps, but for its author in the includes, and without evidence.
fn without_prev(random: &mut Random, peers: usize) -> Of {
    let set = set(random, peers);
    let mut point = judged(random, &set, 0);
    point.includes.retain(|(peer, _)| *peer != point.id.author);
    point.evidence.clear();
    (set, point)
}

/// Peers that differ in their last byte alone.
fn alike(random: &mut Random, count: usize) -> Vec<Peer> {
    let front = random.bytes();
    let peer = |last: usize| {
        let mut peer = front;
        peer[31] = last as u8;
        peer
    };
    (0..count).map(peer).collect()
}

/// Digests that end in the same 12 bits: they share a chain of a book's index.
fn ends_alike(random: &mut Random) -> Digest {
    let mut digest = random.bytes();
    digest[30] &= 0xF0;
    digest[31] = 0;
    digest
}

/// The shortest record that reads in every state: no rows, so indirect links.
fn shortest(id: Id) -> Point {
    let to = Id { round: GENESIS + 1, ..id };
    let link = AnchorLink { through: Through::Includes, peer: id.author, to: Some(to) };
    Point {
        id,
        payload_len: 0,
        payload_bytes: 0,
        includes: Vec::new(),
        witness: Vec::new(),
        evidence: Vec::new(),
        anchor_proof: link,
        anchor_trigger: link,
        role: PointRole::Regular,
        time: ANCHOR_TIME,
        anchor_time: ANCHOR_TIME,
    }
}
