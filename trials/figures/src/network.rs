//! A sound network: every peer makes a point in each round, over all of the round below or over a majority of it.

use book::Offer;
use cases::random::Random;
use feeds::{link_through, top};
use oracle::value::{AnchorStageRole, Digest, Id, Peer, Point, PointRole, Schedule, Settings, Span, Through};
use oracle::{PEER_BUFFER, write};

pub const GENESIS: u32 = 10;
const TIME: u64 = 1_000_000;

/// What a point includes, and in what order points come.
#[derive(Clone, Copy, PartialEq, Eq)]
pub enum Includes {
    /// All of the round below; rounds come one after the other, each in any order.
    All,
    /// 2F+1 of it, its author's own among them; rounds come one after the other too.
    Majority,
    /// What came by the time at which 2F+1 of it are there, its author's own among them; each point takes a time of its own to
    /// come, three times as long from some peers.
    Arrived,
}

pub struct Network {
    random: Random,
    includes: Includes,
    pub settings: Settings,
    schedule: Vec<u8>,
    peers: Vec<Peer>,
    genesis: Point,
    round: u32,
    /// The points of the last two rounds with the times at which they come, the newer round first.
    below: [Vec<(u64, Point)>; 2],
}

/// An offer of a point of this round, which comes at this time.
pub struct Made {
    pub time: u64,
    pub round: u32,
    pub is_bad: bool,
    pub offer: Offer,
}

/// What a point takes to come, in the times of `Made`.
const DELAY: u64 = 1_000;

impl Network {
    pub fn new(mut random: Random, peers: usize, history: u8, includes: Includes) -> Self {
        let mut set: Vec<Peer> = (0..peers).map(|_| random.bytes()).collect();
        set.sort_unstable();
        let settings = Settings {
            genesis_round: GENESIS,
            genesis_digest: random.bytes(),
            payload_batch_bytes: 1,
            sticky_anchors: 0,
            clock_skew_millis: 5_000,
            commit_history_rounds: history,
        };
        let author = random.bytes();
        let spans = vec![Span { first: GENESIS, peers: vec![author] }, Span { first: GENESIS + 1, peers: set.clone() }];
        let schedule = write::schedule(&Schedule { spans, last_known: 1_000_000 });
        let genesis = Point::genesis(Id { round: GENESIS, digest: settings.genesis_digest, author }, TIME);
        let below = [vec![(0, genesis.clone())], Vec::new()];
        Self { random, includes, settings, schedule, peers: set, genesis, round: GENESIS, below }
    }

    /// All points up to a round as they come. One of the round `bad` is invalid, and included as a sound one.
    pub fn offers(mut self, last: u32, bad: u32) -> Vec<Made> {
        let offer = self.offer(&self.genesis);
        let mut all = vec![Made { time: 0, round: GENESIS, is_bad: false, offer }];
        while self.round < last {
            self.round += 1;
            let mut points: Vec<(u64, Point)> = self.peers.clone().into_iter().map(|peer| self.point(peer)).collect();
            if self.round == bad {
                self.spoil(&mut points[0].1);
            }
            let made = |(place, (time, point)): (usize, &(u64, Point))| {
                let is_bad = self.round == bad && place == 0;
                Made { time: *time, round: self.round, is_bad, offer: self.offer(point) }
            };
            all.extend(points.iter().enumerate().map(made));
            self.below.swap(0, 1);
            self.below[0] = points;
        }
        all.sort_by_key(|made| made.time);
        all
    }

    /// It witnesses a point that nobody has.
    fn spoil(&mut self, point: &mut Point) {
        let witnessed = |peer: &Peer| point.witness.iter().any(|(other, _)| other == peer);
        let free = self.peers.iter().find(|peer| **peer != point.id.author && !witnessed(peer));
        point.witness.push((*free.expect("a peer that it doesn't witness"), self.random.bytes()));
        point.witness.sort_unstable();
    }

    fn offer(&self, point: &Point) -> Offer {
        let leader = u8::from(self.leader(point.id.round) == Some(point.id.author));
        let record = write::record(point);
        Offer { schedule: self.schedule.clone(), leader, record, peer_buffer: PEER_BUFFER }
    }

    /// One author leads in each wave of four rounds.
    fn leader(&self, round: u32) -> Option<Peer> {
        (round % 4 == 2).then(|| self.peers[(round / 4) as usize % self.peers.len()])
    }

    /// The time at which an author makes its point.
    fn time(&self, author: &Peer) -> u64 {
        let mut times: Vec<u64> = self.below[0].iter().map(|(time, _)| *time).collect();
        times.sort_unstable();
        let last = *times.last().expect("a round has points");
        let own = self.below[0].iter().find(|(_, point)| point.id.author == *author).map_or(0, |(time, _)| *time);
        if self.includes == Includes::Arrived {
            times.get(self.majority() - 1).copied().unwrap_or(last).max(own)
        } else {
            last
        }
    }

    fn majority(&self) -> usize {
        (self.peers.len() + 1) / 3 * 2 + 1
    }

    fn point(&mut self, author: Peer) -> (u64, Point) {
        let made = self.time(&author);
        let slow = if self.includes == Includes::Arrived && author[0].is_multiple_of(4) { 3 } else { 1 };
        let time = made + 1 + self.random.number() % (DELAY * slow);
        (time, self.point_at(author, made))
    }

    /// Over what has come by that time.
    fn point_at(&mut self, author: Peer, made: u64) -> Point {
        let id = Id { round: self.round, digest: self.random.bytes(), author };
        let came = |place: usize| self.below[place].iter().filter(|(time, _)| *time <= made).map(|(_, point)| point);
        let mut includes: Vec<&Point> = came(0).collect();
        if self.includes == Includes::Majority && includes.len() > self.majority() {
            self.random.shuffle(&mut includes);
            includes.sort_by_key(|point| point.id.author != author);
            includes.truncate(self.majority());
        }
        let prev = includes.iter().copied().find(|point| point.id.author == author);
        let witness = self.witness(prev, came(1).collect());
        let chosen: Vec<Chosen<'_>> = (includes.iter().map(|point| (Through::Includes, *point)))
            .chain(witness.iter().map(|point| (Through::Witness, *point)))
            .collect();
        let role = self.role(id, prev, newest(&chosen, AnchorStageRole::Proof));
        let proof = match (role, prev) {
            (PointRole::AnchorTrigger, Some(prev)) => (Through::Includes, prev),
            _ => newest(&chosen, AnchorStageRole::Proof),
        };
        let anchor_time = match (role, prev) {
            (PointRole::AnchorProof { .. }, Some(prev)) => prev.time,
            _ => proof.1.anchor_time,
        };
        Point {
            id,
            evidence: self.peers.iter().filter(|peer| prev.is_some() && **peer != author).copied().collect(),
            includes: pairs(&includes),
            witness: pairs(&witness),
            anchor_proof: link_through(proof, AnchorStageRole::Proof),
            anchor_trigger: link_through(newest(&chosen, AnchorStageRole::Trigger), AnchorStageRole::Trigger),
            role,
            time: TIME + u64::from(self.round),
            anchor_time,
            ..self.genesis.clone()
        }
    }

    /// What follows a proof is a trigger; the leader's point is a proof where the last one is far enough.
    fn role(&self, id: Id, prev: Option<&Point>, proof: Chosen<'_>) -> PointRole {
        let to = link_through(proof, AnchorStageRole::Proof).to;
        let far = to.is_some_and(|to| id.round - to.round >= 4);
        match prev.map(|prev| prev.role) {
            Some(PointRole::AnchorProof { .. }) => PointRole::AnchorTrigger,
            Some(_) if far && self.leader(id.round) == Some(id.author) => {
                PointRole::AnchorProof { seq_no: 0, is_last: true }
            }
            _ => PointRole::Regular,
        }
    }

    /// Those of two rounds below that the author's previous point doesn't include.
    fn witness<'a>(&self, prev: Option<&Point>, mut came: Vec<&'a Point>) -> Vec<&'a Point> {
        let Some(prev) = prev.filter(|_| self.includes != Includes::All) else { return Vec::new() };
        let included = |point: &Point| prev.includes.iter().any(|(peer, _)| *peer == point.id.author);
        came.retain(|point| point.id.author != prev.id.author && !included(point));
        came
    }
}

/// A dependency with its map.
type Chosen<'a> = (Through, &'a Point);

/// The first dependency whose stage is the newest.
fn newest<'a>(chosen: &[Chosen<'a>], role: AnchorStageRole) -> Chosen<'a> {
    let round = |(_, point): &Chosen<'_>| top(point, role).map(|id| id.round);
    let newest = chosen.iter().filter_map(round).max();
    *chosen.iter().find(|chosen| round(chosen) == newest).expect("a point has dependencies")
}

fn pairs(points: &[&Point]) -> Vec<(Peer, Digest)> {
    let mut pairs: Vec<_> = points.iter().map(|point| (point.id.author, point.id.digest)).collect();
    pairs.sort_unstable();
    pairs
}
