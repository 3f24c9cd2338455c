//! The book that a feed begins with, and the length of its slice.

use book::{Book, Entry, LONGEST, MOST, Root, SETTINGS, State};
use cases::random::Random;
use oracle::numbers::LAST_ROUND;
use oracle::value::{AnchorLink, Id, Point, PointRole, Through};
use oracle::write;

use crate::feeder::Feeder;
use crate::world::World;
use crate::{Feed, OFFERS};

/// Openings of a seed differ from its feeds.
const OPENING: u64 = 0x6F70_656E;

/// Most slices hold all offers; some end where an entry ends, or near it; some are tiny; a few books are given almost
/// full of entries.
pub fn feed(seed: u64, place: u64) -> Feed {
    let feeder = Feeder::new(Random::new(seed, place));
    let mut random = Random::new(!seed, place);
    let world = &feeder.world;
    let ample = OFFERS * (600 + 130 * world.peer_count().min(20));
    match place % 16 {
        0 | 1 | 5 => {
            let mut first = opened(feeder, ample);
            let steps = 1 + random.below(OFFERS - 50);
            first.by_ref().take(steps).for_each(drop);
            let spare = random.pick(&[0, 0, 0, 0, 1, 31, 400]);
            let length = first.book.used() + spare - usize::from(random.chance(1, 6));
            opened(Feeder::new(Random::new(seed, place)), length.max(SETTINGS))
        }
        2 if place % 32 == 2 => {
            let count = MOST - random.pick(&[0, 1, 1, 5, 20, 60]);
            let book = filled(&mut random, world, count, ample);
            Feed { book, opened: false, feeder, left: OFFERS }
        }
        3 => opened(feeder, SETTINGS + random.pick(&[0, 1, 107, 108, 295, 296, 297, 900, 3_000])),
        _ => opened(feeder, ample),
    }
}

/// Settings and the length of a slice to open a book in; most of them are refused.
pub fn opening(seed: u64, place: u64) -> (Vec<u8>, usize) {
    let mut random = Random::new(seed ^ OPENING, place);
    let mut settings = World::new(&mut random).settings;
    match random.below(8) {
        0 => settings.genesis_round = random.pick(&[0, 3, 4, 0x7FFF_FFFF, 1 << 31]),
        1 => settings.payload_batch_bytes = 0,
        2 => settings.clock_skew_millis = 0,
        3 => settings.commit_history_rounds = 0,
        _ => {}
    }
    let mut bytes = write::settings(&settings);
    match random.below(8) {
        0 => bytes.truncate(random.below(SETTINGS)),
        1 => bytes.push(0),
        2 => bytes[random.below(3)] ^= 1,
        _ => {}
    }
    let longest = if place.is_multiple_of(16) { random.pick(&[LONGEST, LONGEST + 1]) } else { 65_536 };
    (bytes, random.pick(&[0, 1, 46, 47, 48, 1_000, longest, longest]))
}

fn opened(feeder: Feeder, length: usize) -> Feed {
    let settings = write::settings(&feeder.world.settings);
    let book = Book::open(&settings, length).expect("settings within limits, and a slice of that length");
    Feed { book, opened: true, feeder, left: OFFERS }
}

/// Entries of small records, in every state, by authors and of rounds of the feed's own.
fn filled(random: &mut Random, world: &World, count: usize, spare: usize) -> Book {
    let mut bytes = write::settings(&world.settings);
    for _ in 0..count {
        filler(random, world).write(&mut bytes);
    }
    bytes.resize(bytes.len() + spare, 0);
    Book::read(&bytes).expect("the entries are laid out as a book's")
}

fn filler(random: &mut Random, world: &World) -> Entry {
    let first = world.settings.genesis_round + 1;
    let round = (first + random.between(0, 60)).min(LAST_ROUND);
    let author = random.pick(world.peers(round));
    let id = Id { round, digest: random.bytes(), author };
    let link = AnchorLink { through: Through::Includes, peer: author, to: Some(Id { round: first - 1, ..id }) };
    let time = world.time(random, round);
    let point = Point {
        id,
        role: PointRole::Regular,
        anchor_proof: link,
        anchor_trigger: link,
        includes: Vec::new(),
        time,
        ..world.genesis(author)
    };
    let reason = random.between(1, 20) as u8;
    let root = Root { id, reason, through: random.pick(&[Through::Includes, Through::Witness]), peer: author };
    let state = match random.below(8) {
        0 => State::Valid,
        1 => State::TransInvalid(root),
        2 => State::Invalid(reason),
        _ => State::IllFormed(reason.min(16)),
    };
    Entry { record: write::record(&point), id, certified: random.chance(1, 3), state }
}
