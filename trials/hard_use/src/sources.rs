//! Where the bytes of a place's calls come from.

use cases::drafts::{Drafted, drafted};
use cases::random::Random;
use cases::{case, forcing, many, waiting};
use compare::damage::{damaged, judge_damaged};
use compare::kind::{as_judge, as_verify};
use compare::permute::permuted;
use inputs::call::{Call, judged_list};
use inputs::dear::Shape;
use oracle::question::Question;
use plain::Prepared;
use trail::{certain_rooms, rooms};

use crate::fronts::share_fronts;
use crate::{converted, opening, small_book, wild};

/// The choice of a place's source differs from its cases.
const CHOICE: u64 = 0x736F_7572;

#[derive(Clone, Copy, PartialEq, Eq, PartialOrd, Ord)]
pub enum Source {
    Generated,
    Damaged,
    Permuted,
    Feed,
    Certificates,
    DamagedBook,
    SmallBook,
    SharedFronts,
    Opening,
    Converted,
    Composed,
    Trailed,
    Asked,
    Spliced,
    Wild,
    Dear,
}

/// Sources with their parts of the places. A feed's place has 200 offers, one for certificates up to 1,400, a permuted one up to 96
/// calls.
const PARTS: [(Source, usize); 16] = [
    (Source::Generated, 450),
    (Source::Damaged, 500),
    (Source::Permuted, 250),
    (Source::Feed, 2),
    (Source::Certificates, 1),
    (Source::DamagedBook, 2),
    (Source::SmallBook, 250),
    (Source::SharedFronts, 150),
    (Source::Opening, 60),
    (Source::Converted, 100),
    (Source::Composed, 250),
    (Source::Trailed, 300),
    (Source::Asked, 200),
    (Source::Spliced, 250),
    (Source::Wild, 150),
    (Source::Dear, 4),
];

impl Source {
    pub fn of(seed: u64, place: u64) -> Self {
        let mut left = Random::new(seed ^ CHOICE, place).below(PARTS.iter().map(|(_, part)| part).sum());
        for (source, part) in PARTS {
            match left.checked_sub(part) {
                Some(rest) => left = rest,
                None => return source,
            }
        }
        unreachable!("the parts make up the whole")
    }

    pub fn name(self) -> &'static str {
        match self {
            Self::Generated => "generated cases",
            Self::Damaged => "damaged cases",
            Self::Permuted => "permuted lists",
            Self::Feed => "feeds of offers",
            Self::Certificates => "feeds for certificates",
            Self::DamagedBook => "damaged books",
            Self::SmallBook => "small books",
            Self::SharedFronts => "ids alike at their front",
            Self::Opening => "openings",
            Self::Converted => "records converted",
            Self::Composed => "points in parts",
            Self::Trailed => "many reasons",
            Self::Asked => "what clears and forces",
            Self::Spliced => "spliced cases",
            Self::Wild => "wild bytes",
            Self::Dear => "dear inputs",
        }
    }
}

/// The calls of a place whose calls don't depend on one another.
pub fn calls(source: Source, seed: u64, place: u64) -> Vec<Call> {
    let mut random = Random::new(!seed.rotate_left(16), place);
    let cases = match source {
        Source::Generated => vec![as_verify(case(seed, place)), as_judge(case(seed, place))],
        Source::Damaged => vec![as_verify(damaged(seed, place)), judge_damaged(seed, place)],
        Source::Permuted => permuted(seed, place).concat(),
        Source::Spliced => vec![wild::spliced(&mut random, seed, place)],
        Source::Wild => vec![wild::wild(&mut random, case(seed, place))],
        Source::SmallBook => return small_book::offers(&mut random, seed, place),
        Source::SharedFronts => return alike(&mut random, seed, place),
        Source::Opening => return vec![opening::opening(&mut random, seed, place)],
        Source::Converted => return converted::conversions(&mut random, seed, place),
        Source::Composed => return vec![composed(seed, place)],
        Source::Trailed => return vec![trailed(&mut random, seed, place)],
        Source::Asked => return asked(&mut random, seed, place),
        Source::Dear => return vec![dear(&mut random)],
        Source::Feed | Source::Certificates | Source::DamagedBook => unreachable!("their calls depend on one another"),
    };
    cases.into_iter().map(Call::Case).collect()
}

fn composed(seed: u64, place: u64) -> Call {
    let Drafted { draft, room, .. } = drafted(seed, place);
    Call::Compose { draft: Box::new(draft), length: room }
}

/// Mostly with a trail that ends with the rows or is a little longer or shorter, else with one that has room for certain or a byte less,
/// or with one of any length.
fn trailed(random: &mut Random, seed: u64, place: u64) -> Call {
    let case = if random.chance(1, 4) { judge_damaged(seed, place) } else { many::case(seed, place) };
    let rooms = rooms(Prepared::new(&case).trail(None).1.len());
    let length = match random.below(8) {
        0 => random.below(1_000),
        1 => random.pick(&certain_rooms(judged_list(&case))),
        _ => random.pick(&rooms),
    };
    Call::Trail { case, length }
}

/// What would clear a point that mostly waits, and what the network can force where several entries mostly have reasons; or both of
/// a damaged case. Few lists give more than four rows.
fn asked(random: &mut Random, seed: u64, place: u64) -> Vec<Call> {
    let question = |case| Question::of(case).expect("a case that is judged");
    let [clearing, force] = match random.below(4) {
        0 => [judge_damaged(seed, place), judge_damaged(seed, place)],
        _ => [waiting(seed, place), forcing(seed, place)],
    }
    .map(question);
    let [less, certain] = certain_rooms(&force.list);
    let length = random.pick(&[0, 7, 8, 9, 15, 16, 24, 29, 32, 1_000, less, certain]);
    vec![Call::Clearing(clearing), Call::Force { question: force, length }]
}

/// The most entries or peers where the model judges again for each entry.
const ASKED: usize = 64;

/// A call of any shape; one in four is as long as may be.
fn dear(random: &mut Random) -> Call {
    let (shapes, bound) = if random.chance(1, 4) { (Shape::asking(), ASKED) } else { (Shape::answered(), usize::MAX) };
    let shape = random.pick(&shapes);
    let most = shape.most.min(bound);
    let count = if random.chance(1, 4) { most } else { random.below(most + 1) };
    shape.make(random, count).call
}

/// The calls of another source, with ids that are alike at their front; some of them are damaged then.
fn alike(random: &mut Random, seed: u64, place: u64) -> Vec<Call> {
    let source = random.pick(&[Source::Generated, Source::Generated, Source::SmallBook, Source::Damaged]);
    let mut calls = calls(source, seed, place);
    calls.iter_mut().for_each(|call| share_fronts(random, call));
    calls
}
