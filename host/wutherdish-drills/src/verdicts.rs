//! The verdicts that have no reason number.

use wutherdish::AnchorStageRole::{Proof, Trigger};

use crate::input::Feed;
use crate::world::{A, B, C, World, direct, proof};
use crate::{Answer, Drill};

pub const VALID: Answer = Answer::Verdict { letter: 'V', reason: 0 };
pub const TRANS_INVALID: Answer = Answer::Verdict { letter: 'T', reason: 0 };
const FAIL: Answer = Answer::Verdict { letter: 'F', reason: 0 };

pub fn drills() -> Vec<Drill> {
    vec![valid(), trans_invalid(), fail()]
}

fn valid() -> Drill {
    let world = World::of_one();
    Feed::new(&world).offer(&world.genesis()).drill("valid", "the genesis point, well made", VALID)
}

/// A's point is proof and trigger in one, so that the links end there and the genesis point is not looked for.
fn trans_invalid() -> Drill {
    let world = World::of_three().sticky_anchors(1);
    let child = world.above_all(12, B).link(Proof, direct(A)).link(Trigger, direct(A));
    Feed::new(&world).offer_all([proof(world.first(A), 1, true), world.first(B), world.first(C), child]).drill(
        "trans-invalid",
        "a point that breaks no rule, above points that are invalid",
        TRANS_INVALID,
    )
}

fn fail() -> Drill {
    let world = World::of_one();
    Feed::new(&world).offer(&world.first(A)).drill("fail", "the peers of the point's round are not known", FAIL)
}
