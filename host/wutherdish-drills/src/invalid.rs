//! What makes a point invalid. The crate's first lines say why so little is offered.

use wutherdish::AnchorStageRole::{Proof, Trigger};
use wutherdish::{Dependency, List, Point, State};

use crate::input::{Feed, judge, written};
use crate::world::{A, B, C, D, WRONG_ANCHOR_TIME, World, direct, id, indirect, proof, second_version, trigger};
use crate::{Answer, Drill};

pub fn drills() -> Vec<Drill> {
    let mut drills = vec![no_round_in_dag(), dependency_round_dropped(), not_trigger(), terminal_trigger()];
    drills.extend([time_not_greater(), proof_doesnt_inherit(), anchor_time_not_inherited()]);
    drills.extend([must_have_referenced_prev_point(), must_have_skipped_round(), time_too_far_in_future()]);
    drills.extend([newer_anchor(), anchor_link(), anchor_link_role(), anchor_link_bad_path()]);
    drills.extend([bad_sticky_sequence(), trigger_proof_mismatch(), dep_ill_formed(), dep_not_found()]);
    drills
}

pub fn invalid(reason: u8) -> Answer {
    Answer::Verdict { letter: 'I', reason }
}

fn no_round_in_dag() -> Drill {
    let world = World::of_three();
    let input = judge(&world, &world.first(B), 0, &[]);
    let what = "a case for judging: not even the point's own round is in the DAG";
    Drill { name: "invalid-02", what, input, answer: invalid(2) }
}

fn dependency_round_dropped() -> Drill {
    let world = World::of_three();
    let list = List::new().direct(Dependency::new(State::Dropped));
    let input = judge(&world, &world.first(B), 3, &written(list.to_bytes()));
    let what = "a case for judging: the one dependency's round left the DAG";
    Drill { name: "invalid-03", what, input, answer: invalid(3) }
}

fn not_trigger() -> Drill {
    let world = World::of_three();
    Feed::new(&world).offer(&world.genesis()).offer(&world.first(A)).drill(
        "invalid-04",
        "a regular point, where its author's previous point is a proof",
        invalid(4),
    )
}

/// One more proof should come before it: sticky_anchors is 2.
fn terminal_trigger() -> Drill {
    let world = World::of_three().sticky_anchors(2);
    let parent = proof(world.above_all(12, C).link(Proof, direct(C)), 1, false);
    let point = trigger(world.above_all(13, C)).link(Trigger, direct(C));
    let what = "a terminal trigger, where its author's previous point is not the last proof of its row";
    Feed::new(&world).offer(&parent).offer(&point).drill("invalid-05", what, invalid(5))
}

fn time_not_greater() -> Drill {
    let world = World::of_three();
    let parent = world.first(C);
    let point = Point { time: parent.time, ..world.above_all(12, C) };
    let what = "its time is that of its author's previous point";
    Feed::new(&world).offer(&parent).offer(&point).drill("invalid-06", what, invalid(6))
}

fn proof_doesnt_inherit() -> Drill {
    let world = World::of_three();
    let parent = world.above_all(13, C);
    let point = Point { anchor_time: parent.time - 1, ..proof(world.above_all(14, C), 0, true) };
    let what = "a proof whose anchor time is not the time of its author's previous point";
    Feed::new(&world).offer(&parent).offer_of_leader(&point).drill("invalid-07", what, invalid(7))
}

fn anchor_time_not_inherited() -> Drill {
    let world = World::of_three();
    let point = Point { anchor_time: WRONG_ANCHOR_TIME, ..world.first(B) };
    let what = "its anchor time is not that of the point which its proof link goes through";
    Feed::new(&world).offer(&world.genesis()).offer(&point).drill("invalid-08", what, invalid(8))
}

/// With a fourth peer, three others can be included without the author's own point.
fn of_four() -> World {
    World::new(A, &[A, B, C, D])
}

/// The genesis point has to be offered: above an unfound one no point is valid.
fn must_have_referenced_prev_point() -> Drill {
    let world = of_four();
    let feed = Feed::new(&world).offer(&world.genesis()).offer(&world.first(D));
    let what = "it doesn't include its author's point of the round before, which is valid";
    feed.offer(&world.point(12, D, &[A, B, C])).drill("invalid-09", what, invalid(9))
}

fn must_have_skipped_round() -> Drill {
    let world = of_four();
    let what = "it doesn't include its author's point of the round before, which is invalid";
    Feed::new(&world).offer(&world.first(D)).offer(&world.point(12, D, &[A, B, C])).drill(
        "invalid-10",
        what,
        invalid(10),
    )
}

fn time_too_far_in_future() -> Drill {
    let world = World::of_three();
    let parent = Point { time: 20_000, ..world.first(C) };
    let what = "a dependency's time is later than its own by more than clock_skew_millis";
    Feed::new(&world).offer(&parent).offer(&world.above_all(12, B)).drill("invalid-11", what, invalid(11))
}

fn newer_anchor() -> Drill {
    let world = World::of_three();
    let parent = trigger(world.above_all(12, C));
    let point = world.above_all(13, B);
    let point = point.link(Proof, indirect(id(11, C), C)).link(Trigger, world.to_genesis(A));
    let what = "a dependency is a trigger, and the point's own trigger link leads to an older one";
    Feed::new(&world).offer(&parent).offer(&point).drill("invalid-12", what, invalid(12))
}

/// Both links lead through A's point to C's of round 11, which is neither proof nor trigger. All points of round 12 have to
/// be offered: 13 is a reason of the witness, which the includes' reasons replace, and 14 is looked for only where there is
/// no other.
fn to_regular_point(world: &World) -> (Feed, Point) {
    let astray = world.above_all(12, A).link(Proof, direct(C)).link(Trigger, direct(C));
    let feed = Feed::new(world).offer(&world.first(C)).offer(&astray);
    let feed = feed.offer_all([B, C].map(|author| world.above_all(12, author)));
    let link = indirect(id(11, C), A);
    (feed, world.above_all(13, B).link(Proof, link).link(Trigger, link))
}

fn anchor_link() -> Drill {
    let (feed, point) = to_regular_point(&World::of_three());
    let what = "its links lead to a point that it witnesses, which is neither proof nor trigger";
    feed.offer(&point.witness(C, id(11, C).digest)).drill("invalid-13", what, invalid(13))
}

fn anchor_link_role() -> Drill {
    let (feed, point) = to_regular_point(&World::of_three());
    let what = "its links lead to a point that it doesn't depend on, which is neither proof nor trigger";
    feed.offer(&point).drill("invalid-14", what, invalid(14))
}

fn anchor_link_bad_path() -> Drill {
    let world = World::of_three();
    let point = world.above_all(13, B).link(Proof, indirect(id(11, A), C));
    let what = "its proof link leads through a point whose own proof link leads elsewhere";
    let feed = Feed::new(&world).offer(&world.above_all(12, C));
    feed.offer(&point).drill("invalid-15", what, invalid(15))
}

fn bad_sticky_sequence() -> Drill {
    let world = World::of_three().sticky_anchors(1);
    let what = "a proof with seq_no 1, where its author's previous point, the genesis point, has none";
    let feed = Feed::new(&world).offer(&world.genesis());
    feed.offer(&proof(world.first(A), 1, true)).drill("invalid-16", what, invalid(16))
}

fn trigger_proof_mismatch() -> Drill {
    let world = World::of_three();
    let parent = trigger(world.above_all(12, C));
    let point = world.above_all(13, B).link(Proof, indirect(id(11, A), A)).link(Trigger, direct(C));
    let what = "its proof link leads to another point than the proof of the trigger that it links to";
    Feed::new(&world).offer(&parent).offer(&point).drill("invalid-17", what, invalid(17))
}

fn dep_ill_formed() -> Drill {
    let world = World::of_three();
    let parent = second_version(world.genesis());
    let point = world.first(B).include(A, parent.id.digest);
    let what = "it includes a false genesis point, which is ill-formed";
    Feed::new(&world).offer(&parent).offer(&point).drill("invalid-18", what, invalid(18))
}

fn dep_not_found() -> Drill {
    let world = World::of_three();
    Feed::new(&world).offer(&world.first(B)).drill(
        "invalid-19",
        "a point above one that was never offered",
        invalid(19),
    )
}
