//! Feeds for certificates: every point comes after what it depends on, or never, and digests are distinct in a round. The
//! plain book, whose marks spread, answers them beside the source's own certificates.

use std::collections::{HashMap, HashSet, VecDeque};

use book::{Book, Offer, Offered};
use cases::random::Random;
use oracle::answer::INVALID;
use oracle::numbers::{HORIZON, Read, before};
use oracle::value::{Digest, Id, Peer, Point, Through};
use oracle::{Answer, PEER_BUFFER, feed, write};

use crate::feeder::Feeder;
use crate::world::World;

/// No feed has more offers.
const MOST_OFFERS: usize = 1_400;
/// Rounds that a feed goes beyond its window.
const BEYOND: usize = 10;
/// As in judging: r, r-1 and r-2 are in the DAG.
const ALL_ROUNDS: u8 = 3;

pub struct Ordered {
    book: Book,
    certificates: feed::Feed,
    feeder: Feeder,
    /// Offers that come before the feeder's.
    first: VecDeque<Offer>,
    /// Points above genesis and below this round never come.
    begin: u32,
    /// What points depend on whose list was needed.
    named: HashSet<Id>,
    /// The authors of kept points by round and digest.
    digests: HashMap<(u32, Digest), Peer>,
    left: usize,
}

/// An offer, what came of it, and what the source's judging over its own certificates gives; none where a number in front of
/// it refuses the offer.
pub struct OrderedStep {
    pub offer: Offer,
    pub offered: Offered,
    pub by_source: Option<Answer>,
}

impl Ordered {
    /// The feed of this seed at this place.
    pub fn new(seed: u64, place: u64) -> Self {
        let mut random = Random::new(seed, place);
        let world = World::ordered(&mut random);
        let settings = world.settings.clone();
        let offers = (world.peer_count() * (usize::from(settings.commit_history_rounds) + BEYOND) * 5 / 4)
            .clamp(60, MOST_OFFERS);
        let length = offers * (700 + 150 * world.peer_count());
        let book = Book::open(&write::settings(&settings), length).expect("settings within limits, and a slice");
        let begin = if random.chance(1, 8) { settings.genesis_round + random.between(2, 6) } else { 0 };
        let first = if random.chance(1, 4) { vec![below_genesis(&mut random, &world)] } else { Vec::new() };
        Self {
            book,
            certificates: feed::Feed::new(settings),
            feeder: Feeder::of(random, world),
            first: first.into(),
            begin,
            named: HashSet::new(),
            digests: HashMap::new(),
            left: offers,
        }
    }

    /// The plain book as it stands.
    pub fn book(&self) -> &Book {
        &self.book
    }

    /// Whether each kept point is certified at the source, in the order of keeping.
    pub fn marks(&self) -> impl Iterator<Item = bool> {
        self.certificates.marks().map(|(_, mark)| mark)
    }

    /// The first place where the marks of a book's entries are not the source's.
    pub fn difference(&self, book: &Book) -> Option<usize> {
        let same = book.entries().len() == self.certificates.marks().count();
        let mut pairs = book.entries().iter().zip(self.certificates.marks());
        let place = pairs.position(|(entry, (id, mark))| entry.id != *id || entry.certified != mark);
        place.or((!same).then_some(book.entries().len()))
    }

    /// The feeder's next offer that keeps the order.
    fn next_offer(&mut self) -> Offer {
        if let Some(offer) = self.first.pop_front() {
            return offer;
        }
        loop {
            let offer = self.feeder.next(&self.book);
            if self.read(&offer).is_none_or(|read| self.is_in_order(&read.point.id)) {
                return offer;
            }
        }
    }

    /// What a record means; none where a number refuses the offer.
    fn read(&self, offer: &Offer) -> Option<Read> {
        let Offer { schedule, leader, record, peer_buffer } = offer;
        before(self.book.settings(), schedule, record, *leader, ALL_ROUNDS, *peer_buffer).ok()
    }

    /// Nothing that is kept depends on it, and no other point of its round has its digest.
    fn is_in_order(&self, id: &Id) -> bool {
        let kept = self.book.place(id).is_some();
        let genesis_round = self.feeder.world.settings.genesis_round;
        let comes = id.round <= genesis_round || id.round >= self.begin;
        let alone = self.digests.get(&(id.round, id.digest)).is_none_or(|author| *author == id.author);
        kept || (comes && alone && !self.named.contains(id))
    }

    fn judged(&mut self, read: &Read, leader: bool) -> Answer {
        let answer = self.certificates.offer(&read.schedule, leader, &read.point);
        let Answer::Verdict(verdict) = &answer else { return answer };
        let Point { id, .. } = read.point;
        if self.book.place(&id).is_some() {
            self.digests.insert((id.round, id.digest), id.author);
        }
        if verdict.kind <= INVALID && id.round > read.settings.genesis_round {
            let maps = [Through::Includes, Through::Witness];
            self.named.extend(maps.into_iter().flat_map(|map| read.point.dependencies(map)));
        }
        answer
    }
}

impl Iterator for Ordered {
    type Item = OrderedStep;

    fn next(&mut self) -> Option<OrderedStep> {
        self.left = self.left.checked_sub(1)?;
        let offer = self.next_offer();
        let read = self.read(&offer);
        let offered = self.book.offer(&offer);
        let refused = matches!(offered.answer, Answer::Number(number) if number != HORIZON);
        let by_source = read.filter(|_| !refused).map(|read| self.judged(&read, offer.leader == 1));
        Some(OrderedStep { offer, offered, by_source })
    }
}

/// The point that a genesis point includes, as if there were one: it is ill-formed, and kept.
fn below_genesis(random: &mut Random, world: &World) -> Offer {
    let genesis = world.genesis(world.genesis_authors[0]);
    let [(author, digest)] = genesis.includes[..] else { unreachable!("a genesis point includes one") };
    let round = genesis.id.round;
    let schedule = world.schedule(random, round, author);
    let point = Point { id: Id { round: round - 1, digest, author }, ..genesis };
    let record = write::record(&point);
    Offer { schedule: write::schedule(&schedule), leader: 0, record, peer_buffer: PEER_BUFFER }
}
