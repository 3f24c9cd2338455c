//! What a trans-invalid point waits for: the answers, against judging again with each mark, and the numbers.

use wutherdish::AnchorStageRole::{Proof, Trigger};
use wutherdish::{Clearing, Dependency, List, Point, PointId, Refusal, State, Verdict, clearing, judge, lent};

use crate::case::{Case, assert_each_before_the_next, list, lost, numbers};
use crate::lists::valid;
use crate::network::{GENESIS, PEERS, first, genesis, record, second};
use crate::parts::FILL;
use crate::random::Random;

fn cleared(case: &Case) -> Clearing {
    let Case { settings, schedule, record, leader, presence, .. } = case;
    clearing(settings, schedule, record, *leader, *presence, &case.list()).expect("an answer")
}

fn judged(case: &Case) -> Result<Verdict, Refusal> {
    let Case { settings, schedule, record, leader, presence, .. } = case;
    judge(settings, schedule, record, *leader, *presence, &case.list())
}

/// The call gives this number, as judging does, and changes nothing.
fn assert_number(case: &Case, expected: u8) {
    let Case { settings, schedule, record, leader, presence, .. } = case;
    let (list, mut answer) = (case.list(), [FILL; 69]);
    let number = lent::clearing(settings, schedule, record, *leader, *presence, &list, &mut answer);
    assert_eq!((number, answer), (expected, [FILL; 69]));
    let refused = Refusal::new(expected);
    assert_eq!(clearing(settings, schedule, record, *leader, *presence, &list), Err(refused));
    assert_eq!(judged(case), Err(refused));
}

fn id(dependency: &Dependency) -> Option<PointId> {
    match &dependency.state {
        State::Valid { record } | State::TransInvalid { record, .. } | State::Invalid { record, .. } => {
            Some(Point::read(record).expect("a record").0.id)
        }
        State::IllFormed { id, .. } | State::NotFound { id } => Some(*id),
        State::Dropped => None,
    }
}

fn entries(list: &mut List) -> impl Iterator<Item = &mut Dependency> {
    list.direct.iter_mut().chain(list.indirect.iter_mut().map(|(_, entry)| entry))
}

/// The same case with the flags of a point set wherever it stands.
fn marked(case: &Case, point: PointId) -> Case {
    let mut case = case.clone();
    entries(&mut case.list).filter(|entry| id(entry) == Some(point)).for_each(|entry| entry.certified = true);
    case
}

/// What judging again with each point marked says.
fn tried(case: &Case) -> Clearing {
    if !matches!(judged(case), Ok(Verdict::TransInvalid(_))) {
        return Clearing::NotWaiting;
    }
    let mut ids: Vec<PointId> = entries(&mut case.list.clone()).filter_map(|entry| id(entry)).collect();
    ids.sort();
    ids.dedup();
    ids.retain(|id| judged(&marked(case, *id)) == Ok(Verdict::Valid));
    match ids[..] {
        [] => Clearing::NoSingleMark,
        [id] => Clearing::ClearedBy(id),
        _ => panic!("the mark of each of {ids:?} clears it"),
    }
}

fn bad(point: &Point) -> Dependency {
    Dependency::new(State::Invalid { record: record(point), reason: 8 })
}

/// A point that inherits from the genesis point.
fn heir(point: &Point) -> Dependency {
    Dependency::new(State::TransInvalid { record: record(point), root: genesis().id, reason: 8 })
}

/// A point above three, of which the second is bad.
fn waiting() -> Case {
    let [a, b, c] = [first(0), first(1), first(3)];
    Case::new(&second(&[&a, &b, &c]), list([valid(&genesis()), valid(&a).certified(), bad(&b), valid(&c)]))
}

#[test]
fn one_mark_or_none() {
    let case = waiting();
    assert_eq!(cleared(&case), Clearing::ClearedBy(first(1).id));
    assert_eq!(cleared(&marked(&case, first(1).id)), Clearing::NotWaiting);
    // the one that is named is the dependency, and not the root cause
    let mut other = case.clone();
    other.list.direct[2] = heir(&first(1));
    assert_eq!(cleared(&other), Clearing::ClearedBy(first(1).id));
    // outside the window an heir hands nothing on: r - 1 is 12
    other.settings[46] = 1;
    assert_eq!(cleared(&other), Clearing::NotWaiting);
    // two bad ones
    let mut two = case;
    two.list.direct[3] = heir(&first(3));
    assert_eq!(cleared(&two), Clearing::NoSingleMark);
    assert_eq!(cleared(&marked(&two, first(3).id)), Clearing::ClearedBy(first(1).id));
}

#[test]
fn one_mark_covers_all_places_of_a_point() {
    let mut case = waiting();
    case.list.direct[2] = valid(&first(1));
    let genesis = genesis();
    let target = case.list.clone().indirect(Proof, bad(&genesis));
    let alone = Case { list: target.clone(), ..case.clone() };
    assert_eq!(cleared(&alone), Clearing::ClearedBy(genesis.id));
    case.list = target.indirect(Trigger, bad(&genesis));
    case.list.direct[0] = bad(&genesis);
    assert_eq!(cleared(&case), Clearing::ClearedBy(genesis.id));
    // a mark in one place alone is none of the point's
    case.list.direct[0].certified = true;
    assert_eq!(cleared(&case), Clearing::ClearedBy(genesis.id));
    assert_eq!(cleared(&marked(&case, genesis.id)), Clearing::NotWaiting);
}

#[test]
fn other_verdicts_do_not_wait() {
    let case = waiting();
    let mut invalid = case.clone();
    invalid.list.direct[3] = lost(first(3).id);
    assert!(matches!(judged(&invalid), Ok(Verdict::Invalid(_))));
    let ill_formed = Case { record: record(&Point { evidence: [].into(), ..second(&[&first(0)]) }), ..case.clone() };
    assert!(matches!(judged(&ill_formed), Ok(Verdict::IllFormed(_))));
    let genesis = Case::new(&genesis(), List::new());
    let unread = Case { presence: 0, cut: 1, ..case };
    [invalid, ill_formed, genesis, unread].iter().for_each(|case| assert_eq!(cleared(case), Clearing::NotWaiting));
}

#[test]
fn each_number_before_the_next() {
    let mut numbers = numbers();
    numbers.retain(|(number, _)| *number != 5);
    assert_each_before_the_next(&numbers, &waiting(), assert_number);
}

/// Entries that give no reason, in any order and with any marks; the genesis point is witness and target of both links.
fn any_case(random: &mut Random) -> Case {
    let any = |random: &mut Random, point: &Point| {
        let (record, root) = (record(point), PointId { round: GENESIS + random.below(2) as u32, ..genesis().id });
        let state = match random.below(5) {
            0 => State::Invalid { record, reason: 8 },
            1 => State::TransInvalid { record, root, reason: 8 },
            _ => State::Valid { record },
        };
        let is_marked = point.id.author == PEERS[0] || random.below(4) == 0;
        Dependency { state, certified: is_marked, first_valid: random.flag() }
    };
    let points = [genesis(), first(0), first(1), first(3)];
    let mut list = points.iter().fold(List::new(), |list, point| list.direct(any(random, point)));
    list.direct.rotate_left(random.below(4));
    for role in if random.flag() { [Proof, Trigger] } else { [Trigger, Proof] } {
        list = list.indirect(role, any(random, &genesis()));
    }
    let mut case = Case::new(&second(&[&points[1], &points[2], &points[3]]), list);
    case.settings[46] = 1 + random.below(2) as u8;
    case
}

#[test]
fn judging_again_with_each_mark_says_the_same() {
    let mut random = Random(43);
    let mut seen = [0; 3];
    for _ in 0..3_000 {
        let case = any_case(&mut random);
        let said = cleared(&case);
        assert_eq!(said, tried(&case));
        let kind = match said {
            Clearing::NotWaiting => 0,
            Clearing::NoSingleMark => 1,
            Clearing::ClearedBy(_) => 2,
        };
        seen[kind] += 1;
    }
    assert!(seen.iter().all(|count| *count > 300), "{seen:?}");
}
