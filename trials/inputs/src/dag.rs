//! A DAG of valid points with full maps, and books of its first points.

use book::{Entry, SETTINGS, State};
use cases::random::Random;
use oracle::value::{AnchorLink, Digest, Id, Peer, Point, PointRole, Schedule, Settings, Span, Through};
use oracle::write;

use crate::points::{ANCHOR_TIME, GENESIS, set, settings};

/// The genesis point, and round by round a point of each peer, which depends on all of the two rounds below.
pub struct Dag {
    settings: Vec<u8>,
    pub schedule: Vec<u8>,
    set: Vec<Peer>,
    /// In the order in which they are offered.
    entries: Vec<Entry>,
}

impl Dag {
    /// At least as many points as `points`, in a set of as many peers as `peers`, at least four.
    pub fn new(peers: usize, points: usize) -> Self {
        Self::with_digests(peers, points, Random::bytes)
    }

    /// The same with digests of one's own.
    pub fn with_digests(peers: usize, points: usize, digest: fn(&mut Random) -> Digest) -> Self {
        let random = &mut Random::new(peers as u64, 2);
        let set = set(random, peers);
        let settings = settings(random);
        let genesis = genesis(random.bytes(), &settings);
        let mut dag = Self {
            settings: write::settings(&settings),
            schedule: schedule(genesis.id.author, set.clone()),
            set,
            entries: vec![entry(&genesis)],
        };
        let mut round = GENESIS;
        let mut below = [vec![genesis.id], Vec::new()];
        while dag.entries.len() < points {
            round += 1;
            let ids = dag.set.iter().map(|&author| Id { round, digest: digest(random), author }).collect();
            below = dag.add_round(random, ids, genesis.id, below);
        }
        dag
    }

    /// The same with this commit_history_rounds, the last byte of settings.
    pub fn with_history(mut self, rounds: u8) -> Self {
        self.settings[SETTINGS - 1] = rounds;
        self
    }

    /// Adds the points of a round; gives the ids of the two rounds below the next one.
    fn add_round(&mut self, random: &mut Random, ids: Vec<Id>, genesis: Id, below: [Vec<Id>; 2]) -> [Vec<Id>; 2] {
        for id in &ids {
            self.entries.push(entry(&self.point(random, *id, genesis, &below)));
        }
        let [includes, _] = below;
        [ids, includes]
    }

    /// All that its maps can have: the rounds below, and as evidence all peers but the author.
    fn point(&self, random: &mut Random, id: Id, genesis: Id, below: &[Vec<Id>; 2]) -> Point {
        let [includes, witness] = below;
        let link = link(random, genesis, below);
        let has_prev = includes.iter().any(|other| other.author == id.author);
        let others = |peer: &Peer| has_prev && *peer != id.author;
        Point {
            id,
            payload_len: 3,
            payload_bytes: 70_000,
            includes: includes.iter().map(pair).collect(),
            witness: witness.iter().filter(|other| other.author != id.author).map(pair).collect(),
            evidence: self.set.iter().copied().filter(others).collect(),
            anchor_proof: link,
            anchor_trigger: link,
            role: PointRole::Regular,
            time: ANCHOR_TIME + u64::from(id.round - GENESIS),
            anchor_time: ANCHOR_TIME,
        }
    }

    /// What the program `tally` is fed of its first points.
    pub fn feed(&self, points: usize) -> Vec<u8> {
        feed(&self.settings, &self.schedule, self.entries[..points].iter().map(|entry| &entry.record[..]))
    }

    pub fn record(&self, place: usize) -> &[u8] {
        &self.entries[place].record
    }

    /// Where the entry of a place begins in a book.
    pub fn start(&self, place: usize) -> usize {
        SETTINGS + self.entries[..place].iter().map(Entry::length).sum::<usize>()
    }

    /// Where it stands whether the previous point of the one at a place is certified.
    pub fn prev_flag(&self, place: usize) -> usize {
        let prev = place - self.set.len();
        self.start(prev) + self.entries[prev].record.len() + 4
    }

    /// The book that is left when the first points have been offered, in a slice that `room` points fill.
    pub fn book(&self, points: usize, room: usize) -> Vec<u8> {
        let mut bytes = self.settings.clone();
        for (place, entry) in self.entries[..points].iter().enumerate() {
            // its author's next point marked it; the genesis author has none, and the first mark of a point above spreads to it
            let certified = place.max(1) + self.set.len() < points;
            Entry { certified, ..entry.clone() }.write(&mut bytes);
        }
        bytes.resize(self.start(room), 0);
        bytes
    }
}

/// Settings, a schedule, and points of authors that lead no round, as the program `tally` reads them.
pub fn feed<'a>(settings: &[u8], schedule: &[u8], records: impl Iterator<Item = &'a [u8]>) -> Vec<u8> {
    let mut feed = [settings, schedule].concat();
    for record in records {
        feed.push(0);
        feed.extend(record);
    }
    feed
}

/// The genesis author has a set of its own.
fn schedule(genesis: Peer, peers: Vec<Peer>) -> Vec<u8> {
    let spans = vec![Span { first: GENESIS, peers: vec![genesis] }, Span { first: GENESIS + 1, peers }];
    write::schedule(&Schedule { spans, last_known: u32::MAX })
}

fn entry(point: &Point) -> Entry {
    Entry { record: write::record(point), id: point.id, certified: false, state: State::Valid }
}

fn genesis(author: Peer, settings: &Settings) -> Point {
    Point::genesis(Id { round: settings.genesis_round, digest: settings.genesis_digest, author }, ANCHOR_TIME)
}

/// To the genesis point, which stays the only anchor: direct where a map names it.
fn link(random: &mut Random, genesis: Id, [includes, witness]: &[Vec<Id>; 2]) -> AnchorLink {
    if includes.contains(&genesis) {
        AnchorLink { through: Through::Includes, peer: genesis.author, to: None }
    } else if witness.contains(&genesis) {
        AnchorLink { through: Through::Witness, peer: genesis.author, to: None }
    } else {
        AnchorLink { through: Through::Includes, peer: random.pick(includes).author, to: Some(genesis) }
    }
}

fn pair(id: &Id) -> (Peer, Digest) {
    (id.author, id.digest)
}
