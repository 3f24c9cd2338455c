//! Feeds that are told apart by one thing.

use wutherdish::Point;

use crate::input::Feed;
use crate::invalid::invalid;
use crate::verdicts::{TRANS_INVALID, VALID};
use crate::world::{A, B, C, D, E, WRONG_ANCHOR_TIME, World, second_version};
use crate::{Answer, Drill};

pub fn drills() -> Vec<Drill> {
    let mut drills = vec![never_found(), late_parent(), found_bad(), found_bad_certified()];
    drills.extend([
        certified_by_invalid(),
        successor_first(),
        certificate_spreads(),
        window_inside(),
        window_outside(),
    ]);
    drills.extend([equivocation(), two_valid_versions()]);
    drills
}

fn three_peers() -> World {
    World::new(E, &[A, B, C])
}

/// A's point of round 11, with an anchor time of its own.
fn bad_parent(world: &World) -> Point {
    Point { anchor_time: WRONG_ANCHOR_TIME, ..world.first(A) }
}

/// B's point above all three of round 11.
fn child(world: &World) -> Point {
    world.above_all(12, B)
}

fn never_found() -> Drill {
    let world = three_peers();
    let feed = Feed::new(&world).offer(&world.genesis()).offer_all([B, C].map(|author| world.first(author)));
    feed.offer(&child(&world)).drill("never-found", "a point above a parent that was never offered", invalid(19))
}

/// As `never-found`, then the parent, C's point above the same three, and the child again.
fn late_parent() -> Drill {
    let world = three_peers();
    let feed = Feed::new(&world).offer(&world.genesis()).offer_all([B, C].map(|author| world.first(author)));
    let feed = feed.offer(&child(&world)).offer(&world.first(A)).offer(&world.above_all(12, C));
    feed.offer(&child(&world)).drill(
        "late-parent",
        "the point of never-found keeps its verdict when its parent comes: offered again it is refused",
        Answer::Number(11),
    )
}

/// As `never-found`, with the parent.
fn with_bad_parent(world: &World) -> Feed {
    Feed::new(world).offer_all([world.genesis(), bad_parent(world), world.first(B), world.first(C)])
}

fn found_bad() -> Drill {
    let world = three_peers();
    with_bad_parent(&world).offer(&child(&world)).drill(
        "found-bad",
        "the point of never-found above the same parent, which was offered and is invalid: the root cause",
        TRANS_INVALID,
    )
}

fn found_bad_certified() -> Drill {
    let world = three_peers();
    with_bad_parent(&world).offer(&world.above_all(12, A)).offer(&child(&world)).drill(
        "found-bad-certified",
        "the point of found-bad above the same parent, which its author's next point has marked certified",
        VALID,
    )
}

/// As `found-bad-certified`, but A's next point breaks a rule itself: its time is that of the bad parent.
fn certified_by_invalid() -> Drill {
    let world = three_peers();
    let certifier = Point { time: world.first(A).time, ..world.above_all(12, A) };
    with_bad_parent(&world).offer(&certifier).offer(&child(&world)).drill(
        "certified-by-invalid",
        "the point of found-bad-certified, where the one that marks the parent certified is itself invalid",
        VALID,
    )
}

/// As `found-bad-certified`, but A's next point comes before the bad parent, so that it marks nothing.
fn successor_first() -> Drill {
    let world = three_peers();
    let feed = Feed::new(&world).offer_all([world.genesis(), world.first(B), world.first(C), world.above_all(12, A)]);
    feed.offer(&bad_parent(&world)).offer(&child(&world)).drill(
        "successor-first",
        "the points of found-bad-certified, where the parent comes after its author's next point and is not marked",
        TRANS_INVALID,
    )
}

/// Of the points of round 12 B's alone stands above A's bad one, so it is trans-invalid. B's next point marks it, and that spreads
/// to the bad one, which C's last point witnesses.
fn certificate_spreads() -> Drill {
    let world = World::new(E, &[A, B, C, D]);
    let above = |round, author| world.point(round, author, &[B, C, D]);
    let bad = bad_parent(&world);
    let last = above(13, C).witness(A, bad.id.digest);
    let feed = Feed::new(&world).offer(&world.genesis()).offer(&bad);
    let feed = feed.offer_all([B, C, D].map(|author| world.first(author))).offer(&world.point(12, B, &[A, B, C]));
    feed.offer_all([above(12, C), above(12, D), above(13, B)]).offer(&last).drill(
        "certificate-spreads",
        "a point above a bad one and above one that inherits from it: a certificate of the latter has spread to the former",
        VALID,
    )
}

/// A's point of round 11 is bad, C's of round 12 above it is trans-invalid, and B's of round 13 stands above that one. A's
/// and B's of round 12 come once the bad one is marked, so that there is one way alone for the root cause to come through.
fn window(history: u8, name: &'static str, what: &'static str, answer: Answer) -> Drill {
    let mut world = three_peers();
    world.settings.commit_history_rounds = history;
    let round_12 = [C, A, B].map(|author| world.above_all(12, author));
    with_bad_parent(&world).offer_all(round_12).offer(&world.above_all(13, B)).drill(name, what, answer)
}

fn window_inside() -> Drill {
    window(2, "window-inside", "a root cause two rounds back, where commit_history_rounds is 2", TRANS_INVALID)
}

fn window_outside() -> Drill {
    window(1, "window-outside", "the points of window-inside, where commit_history_rounds is 1", VALID)
}

/// Both points of round 12 are without previous digest. The second comes when the second version is kept, a bad one.
fn equivocation() -> Drill {
    let world = World::new(E, &[A, B, C, D]);
    let bad_version = Point { anchor_time: WRONG_ANCHOR_TIME, ..second_version(world.first(B)) };
    let child = world.point(12, B, &[A, C, D]);
    let feed = Feed::new(&world).offer(&world.genesis()).offer_all([A, C, D, B].map(|author| world.first(author)));
    feed.offer(&child).offer(&bad_version).offer(&second_version(child)).drill(
        "equivocation",
        "a child without previous digest gets 9 above its author's valid point, and 10 once a bad version is kept too",
        invalid(10),
    )
}

/// A includes B's first version, C the second. Nothing is wrong with either.
fn two_valid_versions() -> Drill {
    let world = three_peers();
    let [first, second] = [world.first(B), second_version(world.first(B))];
    let above_second = world.above_all(12, C).include(B, second.id.digest);
    let feed = Feed::new(&world).offer_all([world.genesis(), world.first(A), first, world.first(C), second]);
    feed.offer(&world.above_all(12, A)).offer(&above_second).drill(
        "two-valid-versions",
        "two versions of one author's point are valid, and so are points that stand on the one and on the other",
        VALID,
    )
}
