//! Cases for judging: some that are told apart by one thing in their lists, and a point with several faults.

use wutherdish::AnchorStageRole::{Proof, Trigger};
use wutherdish::{Dependency, List, PeerId, Point, State};

use crate::input::{judge, written};
use crate::invalid::invalid;
use crate::verdicts::{TRANS_INVALID, VALID};
use crate::world::{A, B, C, D, E, WRONG_ANCHOR_TIME, World, direct, id, indirect};
use crate::{Answer, Drill};

pub fn drills() -> Vec<Drill> {
    let mut drills = vec![with_version(), without_version(), with_target(), without_target()];
    drills.extend([flag_of_judging(), flag_of_arrival(), tie_first(), tie_second()]);
    drills.extend([two_reasons(), two_reasons_reversed(), four_faults()]);
    drills.extend([waits_for_one(), waits_for_one_certified(), waits_for_two(), forced_reason()]);
    drills
}

fn case(name: &'static str, what: &'static str, world: &World, point: &Point, list: &List, answer: Answer) -> Drill {
    Drill { name, what, input: judge(world, point, 3, &written(list.to_bytes())), answer }
}

/// A point that was judged valid.
fn valid(point: &Point) -> Dependency {
    Dependency::new(State::Valid { record: written(point.to_bytes()) })
}

/// A point that was judged invalid.
fn bad(point: &Point, reason: u8) -> Dependency {
    Dependency::new(State::Invalid { record: written(point.to_bytes()), reason })
}

/// With the target of both links.
fn with_targets(list: List, target: &Dependency) -> List {
    list.indirect(Proof, target.clone()).indirect(Trigger, target.clone())
}

/// D's point of round 12 includes no point of D. Its list has what it depends on.
fn of_skipper() -> (World, Point, List) {
    let world = World::new(E, &[A, B, C, D]);
    let point = world.point(12, D, &[A, B, C]);
    let list = [A, B, C].iter().fold(List::new(), |list, author| list.direct(valid(&world.first(*author))));
    let list = with_targets(list, &valid(&world.genesis()));
    (world, point, list)
}

fn with_version() -> Drill {
    let (world, point, list) = of_skipper();
    let list = list.direct(valid(&world.first(D)).first_valid());
    let what = "a case for judging: the list has the author's point of the round before, which it should have included";
    case("list-with-version", what, &world, &point, &list, invalid(9))
}

fn without_version() -> Drill {
    let (world, point, list) = of_skipper();
    let what = "the case of list-with-version, without that point: nothing is refused, and reason 9 is lost";
    case("list-without-version", what, &world, &point, &list, VALID)
}

/// B's links lead through A's point to C's of round 11, which is neither proof nor trigger. A's point is invalid for the
/// same, and certified, so that nothing is inherited from it.
fn to_regular_point() -> (World, Point, List) {
    let world = World::new(E, &[A, B, C]);
    let astray = world.above_all(12, A).link(Proof, direct(C)).link(Trigger, direct(C));
    let link = indirect(id(11, C), A);
    let point = world.above_all(13, B).link(Proof, link).link(Trigger, link);
    let list = List::new().direct(bad(&astray, 13).certified());
    let list = list.direct(valid(&world.above_all(12, B)).certified()).direct(valid(&world.above_all(12, C)));
    (world, point, list)
}

fn with_target() -> Drill {
    let (world, point, list) = to_regular_point();
    let list = with_targets(list, &valid(&world.first(C)));
    let what = "a case for judging: the list has the target of the indirect links, which is neither proof nor trigger";
    case("list-with-target", what, &world, &point, &list, invalid(14))
}

fn without_target() -> Drill {
    let (world, point, list) = to_regular_point();
    let what = "the case of list-with-target, without that target: nothing is refused, and reason 14 is lost";
    case("list-without-target", what, &world, &point, &list, VALID)
}

/// B's point of round 13 witnesses A's bad one of round 11, which B's previous point includes.
fn above_bad_witness(is_certified: bool) -> (World, Point, List) {
    let world = World::new(E, &[A, B, C]);
    let witness = Point { anchor_time: WRONG_ANCHOR_TIME, ..world.first(A) };
    let point = world.above_all(13, B).witness(A, witness.id.digest);
    let list = List::new().direct(Dependency { certified: is_certified, ..bad(&witness, 8) });
    let list = list.direct(valid(&world.above_all(12, A))).direct(valid(&world.above_all(12, B)).certified());
    let list = with_targets(list.direct(valid(&world.above_all(12, C))), &valid(&world.genesis()));
    (world, point, list)
}

fn flag_of_judging() -> Drill {
    let (world, point, list) = above_bad_witness(true);
    let what = "a case for judging: the certificate of the previous point has spread to a bad witness, as at a node";
    case("flag-of-judging", what, &world, &point, &list, VALID)
}

fn flag_of_arrival() -> Drill {
    let (world, point, list) = above_bad_witness(false);
    let what = "the case of flag-of-judging, with the witness as it was when it arrived: not certified";
    case("flag-of-arrival", what, &world, &point, &list, TRANS_INVALID)
}

/// C's point of round 12 includes two bad ones of round 11, A's and B's, here in the order of their arrival. Neither root
/// cause is newer than the other.
fn tie(arrived: [PeerId; 2]) -> (World, Point, List) {
    let world = World::new(E, &[A, B, C]);
    let point = world.above_all(12, C);
    let bad_one = |author| bad(&Point { anchor_time: WRONG_ANCHOR_TIME, ..world.first(author) }, 8);
    let list = arrived.iter().fold(List::new(), |list, author| list.direct(bad_one(*author)));
    let list = with_targets(list.direct(valid(&world.first(C)).certified()), &valid(&world.genesis()));
    (world, point, list)
}

fn tie_first() -> Drill {
    let (world, point, list) = tie([A, B]);
    let what = "a case for judging: of two root causes of one round the first that arrived is named, 0a0a..'s";
    case("tie-first", what, &world, &point, &list, TRANS_INVALID)
}

fn tie_second() -> Drill {
    let (world, point, list) = tie([B, A]);
    let what = "the case of tie-first, the two entries in the other order: the root cause is 0b0b..'s";
    case("tie-second", what, &world, &point, &list, TRANS_INVALID)
}

/// C's point of round 12 includes A's of round 11, which was not found, and B's, which is too late. Each gives a reason, and the
/// later one stays.
fn with_two_reasons(is_lost_first: bool) -> (World, Point, List) {
    let world = World::new(E, &[A, B, C]);
    let point = world.above_all(12, C);
    let lost = Dependency::new(State::NotFound { id: id(11, A) });
    let late = valid(&Point { time: point.time + 501, ..world.first(B) });
    let arrived = if is_lost_first { [lost, late] } else { [late, lost] };
    let list = arrived.into_iter().fold(List::new(), List::direct);
    let list = with_targets(list.direct(valid(&world.first(C)).certified()), &valid(&world.genesis()));
    (world, point, list)
}

fn two_reasons() -> Drill {
    let (world, point, list) = with_two_reasons(true);
    let what =
        "a case for judging: a dependency was not found, and then one comes that is too late: the last reason stays";
    case("two-reasons", what, &world, &point, &list, invalid(11))
}

fn two_reasons_reversed() -> Drill {
    let (world, point, list) = with_two_reasons(false);
    let what = "the case of two-reasons, the two entries in the other order: invalid as well, for the other reason";
    case("two-reasons-reversed", what, &world, &point, &list, invalid(19))
}

/// B's point of round 12 has the time of its previous point and an anchor time of its own; A's of round 11, through which its links
/// lead, is too late, and C's was not found.
fn four_faults() -> Drill {
    let world = World::new(E, &[A, B, C]);
    let links = world.to_genesis(A);
    let point = world.above_all(12, B).link(Proof, links).link(Trigger, links);
    let point = Point { anchor_time: WRONG_ANCHOR_TIME, ..point };
    let previous = Point { time: point.time, ..world.first(B) };
    let late = Point { time: point.time + 501, ..world.first(A) };
    let list = List::new().direct(valid(&previous).certified()).direct(valid(&late));
    let list = list.direct(Dependency::new(State::NotFound { id: id(11, C) }));
    let list = with_targets(list, &valid(&world.genesis()));
    let what = "a case for judging: three entries give four reasons, of which the verdict names the last";
    case("four-faults", what, &world, &point, &list, invalid(19))
}

/// B's point of round 13 includes C's of round 12, which inherits from A's bad one of round 11. None of the others stands above A's.
fn above_heir() -> (World, Point, Point, List) {
    let world = World::new(E, &[A, B, C, D]);
    let bad_one = Point { anchor_time: WRONG_ANCHOR_TIME, ..world.first(A) };
    let heir =
        State::TransInvalid { record: written(world.point(12, C, &[A, B, C]).to_bytes()), root: bad_one.id, reason: 8 };
    let above = |round, author| world.point(round, author, &[B, C, D]);
    let list = List::new().direct(Dependency::new(heir)).direct(valid(&above(12, B)).certified());
    let list = with_targets(list.direct(valid(&above(12, D))), &valid(&world.genesis()));
    let point = above(13, B);
    (world, point, bad_one, list)
}

fn waits_for_one() -> Drill {
    let (world, point, _, list) = above_heir();
    let what = "a case for judging: one dependency hands on a root cause that lies below it, so one certificate clears the point";
    case("waits-for-one", what, &world, &point, &list, TRANS_INVALID)
}

fn waits_for_one_certified() -> Drill {
    let (world, point, _, mut list) = above_heir();
    list.direct[0].certified = true;
    let what = "the case of waits-for-one, with that certificate";
    case("waits-for-one-certified", what, &world, &point, &list, VALID)
}

fn waits_for_two() -> Drill {
    let (world, point, bad_one, list) = above_heir();
    let (point, list) = (point.witness(A, bad_one.id.digest), list.direct(bad(&bad_one, 8)));
    let what =
        "the case of waits-for-one, where the point also witnesses the root cause: the mark of neither alone clears it";
    case("waits-for-two", what, &world, &point, &list, TRANS_INVALID)
}

/// B's point of round 12 has an anchor time of its own, and A's of round 11, through which its links lead, is too late: one entry gives
/// both reasons, and no other gives any.
fn forced_reason() -> Drill {
    let world = World::new(E, &[A, B, C]);
    let links = world.to_genesis(A);
    let point = world.above_all(12, B).link(Proof, links).link(Trigger, links);
    let point = Point { anchor_time: WRONG_ANCHOR_TIME, ..point };
    let late = Point { time: point.time + 501, ..world.first(A) };
    let list = List::new().direct(valid(&world.first(B)).certified()).direct(valid(&late));
    let list = with_targets(list.direct(valid(&world.first(C))), &valid(&world.genesis()));
    let what = "a case for judging: one entry gives two reasons, of which the last stays in every order of the entries";
    case("forced-reason", what, &world, &point, &list, invalid(8))
}
