//! The order of a feed's offers: round by round, with versions, late ones, repeated ones and gaps.

use book::{Book, Offer};
use cases::random::Random;
use oracle::numbers::LAST_ROUND;
use oracle::value::{Peer, Point};
use oracle::{PEER_BUFFER, write};

use crate::maker::{ANY, Maker, VALID, WELL_FORMED, Wanted};
use crate::world::World;
use crate::{fault, offer_fault};

/// In a sparse world one point of n is of an earlier round.
const BEHIND: usize = 10;

pub struct Feeder {
    random: Random,
    pub world: World,
    habits: Habits,
    maker: Maker,
    round: u32,
    /// Authors whose points of this round are still to come; one that stands twice has two versions.
    authors: Vec<Peer>,
    /// Points that come late, with how many offers still come before them.
    late: Vec<(usize, Point)>,
    offered: Vec<Offer>,
}

/// How often things go wrong in this feed: one in n.
struct Habits {
    fault: usize,
    offer_fault: usize,
    version: usize,
    late: usize,
    gap: usize,
    /// Depends on anything well formed that is kept, rather than on valid points alone.
    careless: usize,
}

impl Habits {
    fn new(random: &mut Random) -> Self {
        Self {
            fault: random.pick(&[3, 8, 15, 40]),
            offer_fault: random.pick(&[8, 20, 60]),
            version: random.pick(&[4, 10, 30]),
            late: random.pick(&[6, 15, 60]),
            gap: random.pick(&[8, 30]),
            careless: random.pick(&[1, 2, 4, 12]),
        }
    }
}

impl Feeder {
    pub fn new(mut random: Random) -> Self {
        let world = World::new(&mut random);
        Self::of(random, world)
    }

    pub fn of(mut random: Random, world: World) -> Self {
        let habits = Habits::new(&mut random);
        let round = world.settings.genesis_round;
        let authors = world.genesis_authors[..if world.two_geneses { 2 } else { 1 }].to_vec();
        Self { random, world, habits, maker: Maker::default(), round, authors, late: Vec::new(), offered: Vec::new() }
    }

    pub fn next(&mut self, book: &Book) -> Offer {
        let offer = if !self.offered.is_empty() && self.random.chance(1, 40) {
            self.again()
        } else {
            let point = self.next_point(book);
            self.offer(&point)
        };
        self.offered.push(offer.clone());
        offer
    }

    /// A point offered before, as it was or with another schedule.
    fn again(&mut self) -> Offer {
        let place = self.random.below(self.offered.len());
        let schedule = self.offered[self.random.below(self.offered.len())].schedule.clone();
        let again = self.offered[place].clone();
        let peer_buffer = self.random.pick(&[PEER_BUFFER, PEER_BUFFER, PEER_BUFFER, 0]);
        if self.random.chance(1, 2) { again } else { Offer { schedule, peer_buffer, ..again } }
    }

    fn next_point(&mut self, book: &Book) -> Point {
        self.late.iter_mut().for_each(|(before, _)| *before = before.saturating_sub(1));
        if let Some(place) = self.late.iter().position(|(before, _)| *before == 0) {
            return self.late.remove(place).1;
        }
        if self.world.sparse
            && self.random.chance(1, BEHIND)
            && let Some(point) = self.make_behind(book)
        {
            self.maker.add(&point);
            return point;
        }
        loop {
            let Some(author) = self.authors.pop() else {
                self.begin_round(book);
                continue;
            };
            let Some(point) = self.make(book, author) else { continue };
            self.maker.add(&point);
            if !self.world.is_genesis(self.round) && self.random.chance(1, self.habits.late) {
                // some never come
                let before = 1 + self.random.below(40);
                if !self.random.chance(1, 6) {
                    self.late.push((before, point));
                }
                continue;
            }
            return point;
        }
    }

    /// The next round; the same one anew where too few points were made for the next, or, in half of the cases, kept;
    /// the one before where none could be made.
    fn begin_round(&mut self, book: &Book) {
        let authors = |least_good| self.maker.authors(&self.world, book, self.round, least_good);
        let majority = self.world.majority(self.round);
        if authors(ANY) == 0 {
            self.round -= 1;
        } else if authors(ANY) >= majority
            && (authors(WELL_FORMED) >= majority || self.random.chance(1, 2))
            && self.round < LAST_ROUND
        {
            self.round += 1;
        }
        let mut authors = self.world.peers(self.round).to_vec();
        if authors.len() > 3 && self.random.chance(1, self.habits.gap) {
            authors.remove(self.random.below(authors.len()));
        }
        for place in 0..authors.len() {
            if self.random.chance(1, self.habits.version) {
                authors.push(authors[place]);
            }
        }
        self.random.shuffle(&mut authors);
        self.authors = authors;
    }

    fn make(&mut self, book: &Book, author: Peer) -> Option<Point> {
        let random = &mut self.random;
        if self.world.is_genesis(self.round) {
            let mut genesis = self.world.genesis(author);
            if random.chance(1, 30) {
                fault::spoil(random, &self.world, None, &mut genesis);
            }
            return Some(genesis);
        }
        let least_good = match random.below(self.habits.careless * 12) {
            0 => ANY,
            1..12 => WELL_FORMED,
            _ => VALID,
        };
        let wanted = Wanted { round: self.round, author, least_good, certifies: false };
        let mut point = self.maker.point(random, &self.world, book, &wanted)?;
        if random.chance(1, self.habits.fault) {
            let before = self.round.saturating_sub(random.between(2, 6));
            let other = self.maker.any(random, before);
            fault::spoil(random, &self.world, other, &mut point);
        }
        Some(point)
    }

    /// A point of an earlier round, which certifies a point below ones that are certified already.
    fn make_behind(&mut self, book: &Book) -> Option<Point> {
        let round = self.round.saturating_sub(self.random.pick(&[1, 1, 2, 2, 3, 4, 8]));
        if round <= self.world.settings.genesis_round + 1 {
            return None;
        }
        let author = self.random.pick(self.world.peers(round));
        let wanted = Wanted { round, author, least_good: WELL_FORMED, certifies: true };
        self.maker.point(&mut self.random, &self.world, book, &wanted)
    }

    /// With the schedule and the leader of this time.
    fn offer(&mut self, point: &Point) -> Offer {
        let random = &mut self.random;
        let mut schedule = self.world.schedule(random, self.round, self.world.genesis_author(point));
        let leader = u8::from(self.world.leader(point.id.round) == Some(point.id.author));
        let record = write::record(point);
        let mut offer = Offer { schedule: write::schedule(&schedule), leader, record, peer_buffer: PEER_BUFFER };
        while random.chance(1, self.habits.offer_fault) {
            offer_fault::spoil(random, &mut schedule, point, &mut offer);
        }
        offer
    }
}
