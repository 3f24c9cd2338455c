//! Numbers in place of a verdict.

use wutherdish::lent::PEER_BUFFER;
use wutherdish::{Dependency, Digest, List, PeerId, Point, State};

use crate::input::{Feed, convert, force, judge, judge_with_trail, verify, write_twice, written};
use crate::world::{A, B, GENESIS_ROUND, World, id, second_version, trigger};
use crate::{Answer, Drill};

pub fn drills() -> Vec<Drill> {
    let mut drills = vec![settings(), schedule(), point_record(), domain(), short(), horizon()];
    drills.extend([entries(), mismatch(), uncovered(), kept(), full(), twice(), output(), trail(), reasons()]);
    drills
}

fn settings() -> Drill {
    let mut world = World::of_one();
    world.settings.commit_history_rounds = 0;
    let what = "commit_history_rounds is 0, where 1 is the least; no point is read";
    Feed::new(&world).drill("number-01", what, Answer::Number(1))
}

fn schedule() -> Drill {
    let what = "the schedule's last byte is missing; no point is read";
    Feed::new(&World::of_one()).cut().drill("number-02", what, Answer::Number(2))
}

fn point_record() -> Drill {
    let world = World::of_one();
    let what = "the record's last byte is missing";
    Feed::new(&world).offer(&world.genesis()).cut().drill("number-03", what, Answer::Number(3))
}

fn domain() -> Drill {
    let world = World::of_one();
    let point = Point { id: id(3, A), ..world.genesis() };
    let what = "a point of round 3, where 4 is the least";
    Feed::new(&world).offer(&point).drill("number-04", what, Answer::Number(4))
}

fn short() -> Drill {
    let world = World::of_one();
    let input = verify(&world, &world.genesis(), PEER_BUFFER as u32 - 1);
    let what = "a case for verifying: the peer buffer is one byte too short";
    Drill { name: "number-05", what, input, answer: Answer::Number(5) }
}

fn horizon() -> Drill {
    let mut world = World::of_three();
    world.schedule.last_known_round = GENESIS_ROUND + 4;
    let what = "a point of round 11, for which the peers of round 15 have to be known, and they are known up to 14";
    Feed::new(&world).offer(&world.first(B)).drill("number-06", what, Answer::Number(6))
}

/// A case for judging A's point of round 11, whose one dependency is the genesis point.
fn judged(name: &'static str, what: &'static str, number: u8, list: &[u8]) -> Drill {
    let world = World::of_three();
    let input = judge(&world, &trigger(world.first(A)), 3, list);
    Drill { name, what, input, answer: Answer::Number(number) }
}

/// The genesis point as a dependency that no certificate covers.
fn genesis_list() -> Vec<u8> {
    let genesis = State::Valid { record: written(World::of_three().genesis().to_bytes()) };
    written(List::new().direct(Dependency::new(genesis)).to_bytes())
}

fn entries() -> Drill {
    let list = genesis_list();
    judged("number-07", "a case for judging: the list's last byte is missing", 7, &list[..list.len() - 1])
}

fn mismatch() -> Drill {
    judged("number-08", "a case for judging: the list is empty, and the point has a dependency", 8, &[])
}

fn uncovered() -> Drill {
    let what = "a case for judging: the previous point is listed, but not as certified";
    judged("number-09", what, 9, &genesis_list())
}

fn kept() -> Drill {
    let world = World::of_one();
    let what = "the genesis point, offered twice";
    Feed::new(&world).offer(&world.genesis()).offer(&world.genesis()).drill("number-11", what, Answer::Number(11))
}

/// Ill-formed points are kept as well; two with full includes and witness are more than a book of 65,536 bytes holds.
fn full() -> Drill {
    let world = World::of_one();
    let everyone = (0..255).map(|byte| (PeerId([byte; 32]), Digest([byte; 32])));
    let mut large = Point { id: id(GENESIS_ROUND - 1, A), ..world.genesis() };
    large.includes = everyone.clone().collect();
    large.witness = everyone.collect();
    let what = "a second large point, for which the first has left no room";
    Feed::new(&world).offer(&large).offer(&second_version(large)).drill("number-12", what, Answer::Number(12))
}

fn twice() -> Drill {
    let input = write_twice(&World::of_one().genesis());
    let what = "a case for writing: the one peer of its includes stands there twice, with the same digest";
    Drill { name: "number-13", what, input, answer: Answer::Number(13) }
}

/// With one include the record has the same bytes in both arrangements.
fn output() -> Drill {
    let input = convert(&World::of_one().genesis(), |length| length - 1);
    let what = "a case for converting: the output is one byte shorter than the record";
    Drill { name: "number-14", what, input, answer: Answer::Number(14) }
}

/// The row of invalid 2 has eight bytes.
fn trail() -> Drill {
    let world = World::of_three();
    let input = judge_with_trail(&world, &world.first(B), 0, &[], 7);
    let what = "a case for judging with a trail: it is one byte too short for its one row";
    Drill { name: "number-15", what, input, answer: Answer::Number(15) }
}

/// The same of what the network can force.
fn reasons() -> Drill {
    let world = World::of_three();
    let input = force(&world, &world.first(B), 0, &[], 7);
    let what = "a case that asks what the network can force: the output is one byte too short for the one row";
    Drill { name: "number-17", what, input, answer: Answer::Number(17) }
}
