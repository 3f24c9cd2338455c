//! What makes a point ill-formed. No dependency is asked for, so one offer is enough.

use wutherdish::AnchorStageRole::Proof;
use wutherdish::{Digest, Point, PointId, PointRole};

use crate::input::Feed;
use crate::world::{A, B, C, GENESIS_ROUND, GENESIS_TIME, PAYLOAD_BATCH_BYTES, World, direct, id, indirect, proof};
use crate::world::{second_version, trigger};
use crate::{Answer, Drill};

pub fn drills() -> Vec<Drill> {
    let mut drills = vec![before_genesis(), unknown_author(), false_genesis(), too_large_payload()];
    drills.extend([expected_genesis(), bad_genesis_prev_point(), author_in_map(), trigger_bad_proof_link()]);
    drills.extend([link(), anchor_time(), no_prev_point(), too_many_sticky_anchors(), bad_last_sticky_flag()]);
    drills.extend([links_across_genesis(), must_be_empty(), unknown_peers(), unknown_peer_in_anchor_link()]);
    drills.extend([lack_of_peers(), not_regular(), bad_wave_link()]);
    drills
}

fn ill_formed(name: &'static str, what: &'static str, reason: u8, world: &World, point: &Point) -> Drill {
    Feed::new(world).offer(point).drill(name, what, Answer::Verdict { letter: 'L', reason })
}

/// A fault of the genesis point: one peer is enough.
fn of_genesis(name: &'static str, what: &'static str, reason: u8, spoilt: fn(Point) -> Point) -> Drill {
    let world = World::of_one();
    ill_formed(name, what, reason, &world, &spoilt(world.genesis()))
}

fn before_genesis() -> Drill {
    let what = "a point of the round before genesis";
    of_genesis("ill-formed-03", what, 3, |point| Point { id: id(GENESIS_ROUND - 1, A), ..point })
}

fn unknown_author() -> Drill {
    let what = "its author is not among the peers of its round";
    of_genesis("ill-formed-04", what, 4, |point| Point { id: PointId { author: B, ..point.id }, ..point })
}

fn false_genesis() -> Drill {
    let what = "a point of the genesis round with another digest than the genesis point's";
    of_genesis("ill-formed-05", what, 5, second_version)
}

fn too_large_payload() -> Drill {
    let what = "a payload of more than payload_batch_bytes, and of the genesis point, which must have none";
    of_genesis("ill-formed-06", what, 6, |point| point.payload(1, PAYLOAD_BATCH_BYTES + 1))
}

fn expected_genesis() -> Drill {
    let what = "the genesis point without the role of one";
    of_genesis("ill-formed-07-expected-genesis", what, 7, |point| point.role(PointRole::Regular))
}

fn bad_genesis_prev_point() -> Drill {
    let what = "the genesis point with a previous point, where it includes its author with zeros";
    of_genesis("ill-formed-07-bad-genesis-prev-point", what, 7, |point| point.include(A, Digest([9; 32])))
}

fn author_in_map() -> Drill {
    let world = World::of_three();
    let what = "its author stands in its evidence, as one who signed the author's own previous point";
    ill_formed("ill-formed-07-author-in-map", what, 7, &world, &trigger(world.first(A)).evidence(A))
}

fn trigger_bad_proof_link() -> Drill {
    let world = World::of_three();
    let point = trigger(world.above_all(12, A)).link(Proof, world.to_genesis(A));
    let what = "a trigger whose proof link leads further back than to its author's previous point";
    ill_formed("ill-formed-07-trigger-bad-proof-link", what, 7, &world, &point)
}

fn link() -> Drill {
    let world = World::of_three();
    let what = "its proof link goes through a peer whom it doesn't include";
    ill_formed("ill-formed-07-link", what, 7, &world, &world.first(B).link(Proof, direct(C)))
}

fn anchor_time() -> Drill {
    let what = "the genesis point's time is not its anchor time";
    of_genesis("ill-formed-07-anchor-time", what, 7, |point| Point { time: GENESIS_TIME + 1, ..point })
}

fn no_prev_point() -> Drill {
    let world = World::of_three();
    let what = "a trigger that includes no point of its author";
    ill_formed("ill-formed-07-no-prev-point", what, 7, &world, &trigger(world.first(B)))
}

fn too_many_sticky_anchors() -> Drill {
    let world = World::of_three().sticky_anchors(1);
    let what = "a proof with seq_no 2, where sticky_anchors is 1";
    ill_formed("ill-formed-08", what, 8, &world, &proof(world.first(A), 2, true))
}

fn bad_last_sticky_flag() -> Drill {
    let world = World::of_three().sticky_anchors(1);
    let what = "a proof with seq_no 1 that isn't called the last, where sticky_anchors is 1";
    ill_formed("ill-formed-09", what, 9, &world, &proof(world.first(A), 1, false))
}

/// A is a peer of the round before genesis too: else the link's target would be unknown.
fn links_across_genesis() -> Drill {
    let mut world = World::of_three();
    world.schedule = world.schedule.span(GENESIS_ROUND - 1, [A]);
    let point = world.first(B).link(Proof, indirect(id(GENESIS_ROUND - 1, A), A));
    let what = "its proof link leads to the round before genesis";
    ill_formed("ill-formed-10", what, 10, &world, &point)
}

fn must_be_empty() -> Drill {
    let what = "the genesis point with evidence, of which it must have none";
    of_genesis("ill-formed-11", what, 11, |point| point.evidence(B))
}

fn unknown_peers() -> Drill {
    let what = "it includes a peer that is not among the peers of that round";
    of_genesis("ill-formed-12", what, 12, |point| point.include(B, id(GENESIS_ROUND, B).digest))
}

fn unknown_peer_in_anchor_link() -> Drill {
    let what = "its proof link leads to a point of a peer that is not among the peers of that round";
    of_genesis("ill-formed-13", what, 13, |point| point.link(Proof, indirect(id(GENESIS_ROUND, B), A)))
}

fn lack_of_peers() -> Drill {
    let world = World::of_three();
    let what = "it includes two points, where 2F+1 is three";
    ill_formed("ill-formed-14", what, 14, &world, &world.point(12, B, &[A, B]))
}

/// That the next span has the same peers makes no difference.
fn not_regular() -> Drill {
    let mut world = World::of_three();
    world.schedule = world.schedule.span(GENESIS_ROUND + 5, [A, B, C]);
    let what = "a trigger four rounds before the schedule's next span, where only regular points may stand";
    ill_formed("ill-formed-15", what, 15, &world, &trigger(world.first(A)))
}

fn bad_wave_link() -> Drill {
    let world = World::of_three();
    let what = "a leader's proof, one round above the proof that it links to, where four are the least";
    let answer = Answer::Verdict { letter: 'L', reason: 16 };
    Feed::new(&world).offer_of_leader(&proof(world.first(A), 0, true)).drill("ill-formed-16", what, answer)
}
