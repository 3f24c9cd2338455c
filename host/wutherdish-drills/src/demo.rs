//! One feed with every verdict in it.

use wutherdish::Point;

use crate::Drill;
use crate::input::Feed;
use crate::verdicts::VALID;
use crate::world::{A, B, C, D, E, World, proof, trigger};

/// A wave by A: the proof of round 14, whose links span the four rounds to the genesis point, and its trigger of round 15.
/// The proof is offered twice. B's last point lies in a round whose peers are not known yet.
pub fn drill() -> Drill {
    let mut world = World::new(E, &[A, B, C, D]);
    world.schedule.last_known_round = 19;
    let proof = wave_proof(&world);
    Feed::new(&world)
        .offer(&world.genesis())
        .offer_all([A, B, C].map(|author| world.first(author)))
        .offer_all(round_12(&world))
        .offer_all(round_13(&world))
        .offer(&world.point(14, C, &[A, D, C]))
        .offer_of_leader(&proof)
        .offer_of_leader(&proof)
        .offer(&world.point(14, D, &[A, C, D]))
        .offer(&world.point(20, B, &[A, C, D]))
        .offer(&wave_trigger(&world, &proof))
        .drill("demo", "each verdict, a refused offer, a proof and its trigger, marks and a root cause", VALID)
}

/// D's clock is slow: the points below lie too far in its future, so its point is invalid.
fn round_12(world: &World) -> [Point; 3] {
    let [a, b, d] = [A, B, D].map(|author| world.point(12, author, &[A, B, C]));
    [a, b, Point { time: 10_400, ..d }]
}

/// C's point above D's is trans-invalid. D's own marks D's, so A's above it is valid. B's includes too few.
fn round_13(world: &World) -> [Point; 4] {
    let [c, d, a] = [C, D, A].map(|author| world.point(13, author, &[A, B, D]));
    [c, world.point(13, B, &[A, B]), d, a]
}

/// It proves A's point of round 13 and takes over its time. C's next point has marked C's of round 13 by then.
fn wave_proof(world: &World) -> Point {
    Point { anchor_time: 13_000, ..proof(world.point(14, A, &[C, D, A]), 0, true) }
}

fn wave_trigger(world: &World, proof: &Point) -> Point {
    Point { anchor_time: proof.anchor_time, ..trigger(world.point(15, A, &[C, D, A])) }
}
