//! Well-made points over those that were made before.

use std::collections::{BTreeMap, HashMap};

use book::{Book, State};
use cases::random::Random;
use oracle::value::{AnchorStageRole, Digest, Id, Peer, Point, PointRole, Through};

use crate::anchor::{link_through, top};
use crate::world::World;

/// All points made so far, whether the book keeps them or not.
#[derive(Default)]
pub struct Maker {
    points: HashMap<Id, Point>,
    /// The versions of a round by author, in the order in which they were made.
    rounds: BTreeMap<u32, BTreeMap<Peer, Vec<Digest>>>,
}

/// How good a dependency is: valid; kept and well formed; anything.
pub const VALID: u8 = 0;
pub const WELL_FORMED: u8 = 1;
pub const ANY: u8 = 2;

/// In a sparse world one point of n includes its author's previous one.
const SPARSE: usize = 24;

/// A new point's round and author, and the least good that it depends on where it has the choice.
pub struct Wanted {
    pub round: u32,
    pub author: Peer,
    pub least_good: u8,
    /// It includes its author's previous point in a sparse world too.
    pub certifies: bool,
}

/// A dependency that was chosen, with its map.
type Chosen<'a> = (Through, &'a Point);

impl Maker {
    pub fn add(&mut self, point: &Point) {
        let id = point.id;
        self.rounds.entry(id.round).or_default().entry(id.author).or_default().push(id.digest);
        self.points.insert(id, point.clone());
    }

    /// How many authors have points of a round, as good as this or better.
    pub fn authors(&self, world: &World, book: &Book, round: u32, least_good: u8) -> usize {
        let good = |author: Peer, digest: Digest| how_good(book, &Id { round, digest, author }) <= least_good;
        let authors = self.rounds.get(&round).into_iter().flatten();
        let authors = authors.filter(|(author, _)| world.knows(round, author));
        authors.filter(|(author, digests)| digests.iter().any(|digest| good(**author, *digest))).count()
    }

    /// Any point of a round.
    pub fn any(&self, random: &mut Random, round: u32) -> Option<Id> {
        let authors = self.rounds.get(&round)?;
        let (author, digests) = authors.iter().nth(random.below(authors.len()))?;
        Some(Id { round, digest: random.pick(digests), author: *author })
    }

    /// A point in which no fault is found where what it depends on is good; none where a majority is lacking below.
    pub fn point(&self, random: &mut Random, world: &World, book: &Book, wanted: &Wanted) -> Option<Point> {
        let mut chosen = self.choose_includes(random, world, book, wanted)?;
        let prev = chosen.iter().map(|(_, point)| *point).find(|point| point.id.author == wanted.author);
        chosen.extend(self.choose_witness(random, world, book, wanted));
        let newest_proof = newest(random, &chosen, AnchorStageRole::Proof)?;
        let role = choose_role(world, wanted, prev, newest_proof);
        let proof = match (role, prev) {
            (PointRole::AnchorTrigger | PointRole::AnchorProof { seq_no: 1.., .. }, Some(prev)) => {
                (Through::Includes, prev)
            }
            _ => newest_proof,
        };
        let trigger = newest(random, &chosen, AnchorStageRole::Trigger)?;
        let anchor_time = match (role, prev) {
            (PointRole::AnchorProof { .. }, Some(prev)) => prev.time,
            _ => proof.1.anchor_time,
        };
        Some(Point {
            id: Id { round: wanted.round, digest: random.bytes(), author: wanted.author },
            payload_len: random.between(0, 9),
            payload_bytes: random.between(0, world.settings.payload_batch_bytes),
            includes: pairs(&chosen, Through::Includes),
            witness: pairs(&chosen, Through::Witness),
            evidence: if prev.is_some() { world.evidence(random, wanted.round, &wanted.author) } else { Vec::new() },
            anchor_proof: link_through(proof, AnchorStageRole::Proof),
            anchor_trigger: link_through(trigger, AnchorStageRole::Trigger),
            role,
            time: choose_time(random, world, wanted.round, [prev.map_or(0, |prev| prev.time), anchor_time]),
            anchor_time,
        })
    }

    /// A majority of r-1 and some more, the best first; the author's own in most cases, if it is kept.
    fn choose_includes(
        &self,
        random: &mut Random,
        world: &World,
        book: &Book,
        wanted: &Wanted,
    ) -> Option<Vec<Chosen<'_>>> {
        let below = wanted.round - 1;
        let mut ranked = self.ranked(random, world, book, below);
        ranked.retain(|(_, point)| !world.is_shadow(&point.id.author));
        let own = ranked.iter().position(|(_, point)| point.id.author == wanted.author);
        let own = own.map(|place| ranked.remove(place));
        let majority = world.majority(below);
        let own = own.filter(|(good, _)| ranked.len() < majority || (*good < ANY && !random.chance(1, 12)));
        let left_out = world.sparse && !wanted.certifies && ranked.len() >= majority;
        let own = own.filter(|_| !left_out || random.chance(1, SPARSE));
        let least = majority - usize::from(own.is_some());
        if ranked.len() < least {
            return None;
        }
        let good = ranked.iter().filter(|(good, _)| *good <= wanted.least_good).count().max(least);
        ranked.truncate(least + random.below(good - least + 1));
        ranked.extend(own);
        Some(ranked.into_iter().map(|(_, point)| (Through::Includes, point)).collect())
    }

    fn choose_witness(&self, random: &mut Random, world: &World, book: &Book, wanted: &Wanted) -> Vec<Chosen<'_>> {
        if !world.shadows.is_empty() {
            return self.choose_shadows(random, world, book, wanted);
        }
        if random.chance(1, 2) {
            return Vec::new();
        }
        let mut ranked = self.ranked(random, world, book, wanted.round - 2);
        ranked.retain(|(good, point)| *good <= wanted.least_good && point.id.author != wanted.author);
        ranked.truncate(random.below(4));
        ranked.into_iter().map(|(_, point)| (Through::Witness, point)).collect()
    }

    /// A shadow witnesses the others, so that they are reached by witness alone; another author does so now and then.
    fn choose_shadows(&self, random: &mut Random, world: &World, book: &Book, wanted: &Wanted) -> Vec<Chosen<'_>> {
        let mut ranked = self.ranked(random, world, book, wanted.round - 2);
        let witnesses = world.is_shadow(&wanted.author) || random.chance(1, 4);
        ranked.retain(|(_, point)| witnesses && world.is_shadow(&point.id.author) && point.id.author != wanted.author);
        ranked.into_iter().map(|(_, point)| (Through::Witness, point)).collect()
    }

    /// One version of each author of a round, the best ones first; of genesis points one.
    fn ranked(&self, random: &mut Random, world: &World, book: &Book, round: u32) -> Vec<(u8, &Point)> {
        let mut ranked: Vec<(u8, &Point)> = Vec::new();
        for (author, digests) in self.rounds.get(&round).into_iter().flatten() {
            if !world.knows(round, author) {
                continue;
            }
            let how_good = |digest: Digest| {
                let id = Id { round, digest, author: *author };
                (how_good(book, &id), &self.points[&id])
            };
            let any = how_good(random.pick(digests));
            let best = digests.iter().copied().map(how_good).min_by_key(|(good, _)| *good).unwrap_or(any);
            ranked.push(if random.chance(1, 4) { any } else { best });
        }
        random.shuffle(&mut ranked);
        ranked.sort_by_key(|(good, _)| *good);
        if world.is_genesis(round) {
            ranked.truncate(1);
        }
        ranked
    }
}

fn how_good(book: &Book, id: &Id) -> u8 {
    match book.place(id).map(|place| &book.entries()[place].state) {
        Some(State::Valid) => VALID,
        Some(State::TransInvalid(_) | State::Invalid(_)) => WELL_FORMED,
        Some(State::IllFormed(_)) | None => ANY,
    }
}

/// One of the dependencies whose stage is the newest.
fn newest<'a>(random: &mut Random, chosen: &[Chosen<'a>], role: AnchorStageRole) -> Option<Chosen<'a>> {
    let round = |(_, point): &Chosen<'_>| top(point, role).map(|id| id.round);
    let newest = chosen.iter().filter_map(round).max()?;
    let among: Vec<Chosen<'a>> =
        chosen.iter().filter(|dependency| round(dependency) == Some(newest)).copied().collect();
    Some(random.pick(&among))
}

/// What follows a proof is a trigger; the leader's point is a proof where the last one is far enough.
fn choose_role(world: &World, wanted: &Wanted, prev: Option<&Point>, proof: Chosen<'_>) -> PointRole {
    let Some(prev) = prev.filter(|_| !world.regular_required(wanted.round)) else { return PointRole::Regular };
    let sticky = world.settings.sticky_anchors;
    match prev.role {
        PointRole::AnchorProof { seq_no, is_last: false } => {
            let seq_no = seq_no.saturating_add(1);
            return PointRole::AnchorProof { seq_no, is_last: seq_no == sticky };
        }
        PointRole::AnchorProof { .. } | PointRole::Genesis => return PointRole::AnchorTrigger,
        PointRole::Regular | PointRole::AnchorTrigger => {}
    }
    let to = link_through(proof, AnchorStageRole::Proof).to;
    let far = to.is_some_and(|to| wanted.round.saturating_sub(to.round) >= 4);
    if far && world.leader(wanted.round) == Some(wanted.author) {
        return PointRole::AnchorProof { seq_no: 0, is_last: sticky == 0 };
    }
    PointRole::Regular
}

/// A time of the round, or a later one: it is greater than these.
fn choose_time(random: &mut Random, world: &World, round: u32, greater_than: [u64; 2]) -> u64 {
    let [first, second] = greater_than.map(|time| time.saturating_add(1));
    world.time(random, round).max(first).max(second)
}

fn pairs(chosen: &[Chosen<'_>], map: Through) -> Vec<(Peer, Digest)> {
    let of_map = chosen.iter().filter(|(through, _)| *through == map);
    let mut pairs: Vec<_> = of_map.map(|(_, point)| (point.id.author, point.id.digest)).collect();
    pairs.sort_unstable();
    pairs
}
