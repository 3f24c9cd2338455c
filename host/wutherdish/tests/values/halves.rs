//! Lists judged whole and in halves: the whole list's record is the join of the halves' records.
//!
//! A list that lacks dependencies is refused, so a half is the whole list with the entries of the other half certified: these
//! are then checked as before, and record nothing.

use wutherdish::AnchorStageRole::{Proof, Trigger};
use wutherdish::{Dependency, Digest, InvalidDependency, List, Point, PointId, State, Verdict, judge};

use crate::network::{GENESIS, PEERS, first, genesis, record, schedule, second, settings};
use crate::random::Random;

/// Direct entries, and then indirect ones.
const ENTRIES: usize = 6;

/// The record that judging ends with; none of these lists gives a reason.
fn recorded(point: &Point, list: &List) -> Option<InvalidDependency> {
    let list = list.to_bytes().expect("a short list");
    match judge(&settings().to_bytes(), &schedule(), &record(point), 0, 3, &list) {
        Ok(Verdict::Valid) => None,
        Ok(Verdict::TransInvalid(dependency)) => Some(dependency),
        other => panic!("{other:?}"),
    }
}

/// A dependency that is valid, or has a root cause of one of a few rounds and reasons, so that ties are frequent.
fn any_dependency(random: &mut Random, point: &Point) -> Dependency {
    let record = record(point);
    let reason = [2, 3, 6, 20, 1, 19][random.below(6)];
    let round = GENESIS - 2 + random.below(4) as u32;
    let root = PointId { round, digest: Digest(random.bytes()), author: random.peer() };
    let state = match random.below(4) {
        0 => State::Valid { record },
        1 => State::Invalid { record, reason },
        _ => State::TransInvalid { record, root, reason },
    };
    Dependency { state, certified: random.below(4) == 0, first_valid: random.flag() }
}

/// The list with the entries certified whose places are in the other half.
fn half(list: &List, is_left_out: impl Fn(usize) -> bool) -> List {
    let mut half = list.clone();
    let direct = half.direct.len();
    for (place, dependency) in half.direct.iter_mut().enumerate() {
        dependency.certified |= is_left_out(place);
    }
    for (place, (_, dependency)) in half.indirect.iter_mut().enumerate() {
        dependency.certified |= is_left_out(direct + place);
    }
    half
}

#[test]
fn the_record_is_the_join_of_the_halves() {
    let points = [genesis(), first(0), first(1), first(3)];
    let point = second(&[&points[1], &points[2], &points[3]]);
    let mut random = Random(10);
    let (mut from_first, mut from_second, mut ties, mut none) = (0, 0, 0, 0);
    for _ in 0..2_000 {
        let mut list = List::new();
        for dependency in &points {
            let entry = any_dependency(&mut random, dependency);
            let certified = entry.certified || dependency.id.author == PEERS[0];
            list = list.direct(Dependency { certified, ..entry });
        }
        for role in [Proof, Trigger] {
            list = list.indirect(role, any_dependency(&mut random, &genesis()));
        }
        let whole = recorded(&point, &list);
        for cut in 0..=ENTRIES {
            let front = recorded(&point, &half(&list, |place| place >= cut));
            let back = recorded(&point, &half(&list, |place| place < cut));
            assert_eq!(InvalidDependency::join(front, back), whole, "cut at {cut}: {list:?}");
            match whole {
                None => none += 1,
                _ if front != back && InvalidDependency::join(back, front) != whole => ties += 1,
                _ if front == whole => from_first += 1,
                _ => from_second += 1,
            }
        }
    }
    for count in [from_first, from_second, ties, none] {
        assert!(
            count > 100,
            "{from_first} from the first half, {from_second} from the second, {ties} ties, {none} none"
        );
    }
}
