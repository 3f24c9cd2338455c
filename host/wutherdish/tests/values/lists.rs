//! Lists made by the builder are readable, and judged as a book judges.

use wutherdish::AnchorStageRole::{Proof, Trigger};
use wutherdish::{
    AnchorLink, Dependency, IndirectLink, InvalidDependency, List, Point, Refusal, State, Through, Verdict, judge,
};

use crate::network::{FOUNDER, PEERS, first, genesis, record, schedule, second, settings};
use crate::random::Random;

fn judged(point: &Point, list: &List) -> Result<Verdict, Refusal> {
    let list = list.to_bytes().expect("a short list");
    judge(&settings().to_bytes(), &schedule(), &record(point), 0, 3, &list)
}

pub fn valid(point: &Point) -> Dependency {
    Dependency::new(State::Valid { record: record(point) }).first_valid()
}

#[test]
fn a_whole_list() {
    let [a, b, c] = [first(0), first(1), first(3)];
    let point = second(&[&a, &b, &c]);
    let most = List::new().direct(valid(&genesis())).direct(valid(&a).certified()).direct(valid(&b));
    let with = |dependency| most.clone().direct(dependency).indirect(Proof, valid(&genesis()));
    assert_eq!(judged(&point, &with(valid(&c))), Ok(Verdict::Valid));
    assert_eq!(judged(&point, &with(valid(&c)).indirect(Trigger, valid(&genesis()))), Ok(Verdict::Valid));
    assert_eq!(judged(&point, &most), Err(Refusal::Mismatch));
    let invalid = |reason| with(Dependency::new(State::Invalid { record: record(&c), reason }));
    let link = IndirectLink { to: c.id, through: Through::Includes(PEERS[3]) };
    assert_eq!(judged(&point, &invalid(20)), Ok(Verdict::TransInvalid(InvalidDependency { link, reason: 20 })));
    assert_eq!(judged(&point, &invalid(21)), Err(Refusal::Entries));
    let uncovered = List::new().direct(valid(&genesis())).direct(valid(&a)).direct(valid(&b)).direct(valid(&c));
    assert_eq!(judged(&point, &uncovered), Err(Refusal::Uncovered));
}

#[test]
fn an_indirect_entry_is_of_its_links_role() {
    let [a, b, c] = [first(0), first(1), first(3)];
    let link = AnchorLink::Direct(Through::Witness(FOUNDER));
    let direct = [valid(&genesis()), valid(&a).certified(), valid(&b), valid(&c)];
    for (direct_role, indirect_role) in [(Trigger, Proof), (Proof, Trigger)] {
        let point = second(&[&a, &b, &c]).link(direct_role, link);
        let list = List { direct: direct.to_vec(), indirect: vec![] };
        let of = |role| list.clone().indirect(role, valid(&genesis()));
        assert_eq!(judged(&point, &of(indirect_role)), Ok(Verdict::Valid));
        assert_eq!(judged(&point, &of(direct_role)), Err(Refusal::Mismatch));
    }
}

/// A dependency in any state, with any reason that the state may have.
pub fn any_dependency(random: &mut Random, point: &Point) -> Dependency {
    let (record, id) = (record(point), point.id);
    let (invalid, ill_formed) = (1 + random.below(20) as u8, 1 + random.below(16) as u8);
    let state = match random.below(6) {
        0 => State::Valid { record },
        1 => State::TransInvalid { record, root: genesis().id, reason: invalid },
        2 => State::Invalid { record, reason: invalid },
        3 => State::IllFormed { id, reason: ill_formed },
        4 => State::NotFound { id },
        _ => State::Dropped,
    };
    Dependency { state, certified: random.flag(), first_valid: random.flag() }
}

/// The points that a point includes or witnesses, in any state, each up to two seconds later than it is, and the targets of its links;
/// its previous point is certified.
pub fn any_list(random: &mut Random, points: &[Point]) -> List {
    let mut list = List::new();
    for dependency in points {
        let moved = Point { time: dependency.time + random.below(3) as u64 * 1_000, ..dependency.clone() };
        let entry = any_dependency(random, &moved);
        list = list.direct(Dependency { certified: entry.certified || moved.id.author == PEERS[0], ..entry });
    }
    [Proof, Trigger].iter().fold(list, |list, role| list.indirect(*role, any_dependency(random, &genesis())))
}

#[test]
fn lists_of_the_builder_are_readable() {
    let points = [genesis(), first(0), first(1), first(3)];
    let point = second(&[&points[1], &points[2], &points[3]]);
    let mut random = Random(7);
    let mut verdicts = 0;
    for _ in 0..3_000 {
        let mut list = List::new();
        for dependency in &points {
            let Dependency { state, certified, first_valid } = any_dependency(&mut random, dependency);
            let certified = certified || dependency.id.author == PEERS[0];
            list = list.direct(Dependency { state, certified, first_valid });
        }
        for role in [Proof, Trigger] {
            list = list.indirect(role, any_dependency(&mut random, &genesis()));
        }
        verdicts += usize::from(judged(&point, &list).is_ok());
    }
    assert_eq!(verdicts, 3_000);
}
