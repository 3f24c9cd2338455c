//! Faults put into a well-made point.

use cases::random::Random;
use oracle::value::{AnchorLink, Digest, Id, Peer, Point, PointRole};

use crate::world::World;

type Fault = fn(&mut Random, &World, &mut Point);

/// One of the faults; `other` is a point of a round before that stands for nothing in particular.
pub fn spoil(random: &mut Random, world: &World, other: Option<Id>, point: &mut Point) {
    if other.is_some() && random.chance(1, 12) {
        random_link(random, point).to = other;
        return;
    }
    let faults = if world.is_genesis(point.id.round) { &AT_GENESIS[..] } else { &ABOVE[..] };
    let fault = random.pick(faults);
    fault(random, world, point);
}

const AT_GENESIS: [Fault; 4] = [
    |random, _, point| point.id.digest = random.bytes(),
    |_, _, point| point.anchor_time += 1,
    |random, _, point| point.evidence.push(random.bytes()),
    |random, _, point| random_link(random, point).peer = random.bytes(),
];

/// First those that leave the point well formed for the most part, then those that don't.
const ABOVE: [Fault; 27] = [
    |random, _, point| other_digest(random, &mut point.includes),
    |random, _, point| other_digest(random, &mut point.witness),
    |_, _, point| skip_prev(point),
    |_, _, point| skip_prev(point),
    |random, world, point| {
        let digest = random.bytes();
        set_prev(random, world, point, digest);
    },
    |random, world, point| {
        let digest = random.bytes();
        set_prev(random, world, point, digest);
    },
    |random, _, point| point.anchor_time = point.anchor_time.saturating_sub(u64::from(random.between(1, 2))),
    |random, _, point| point.time = point.time.saturating_sub(u64::from(random.between(500, 3_000))),
    |random, _, point| point.time += u64::from(random.between(1_000, 100_000)),
    |random, world, point| older_target(random, world, point),
    |random, world, point| older_target(random, world, point),
    |random, _, point| other_target(random, point),
    |random, world, point| add_witness(random, world, point),
    |random, world, point| {
        point.role = random.pick(&[PointRole::Regular, PointRole::AnchorTrigger, first_proof(world)]);
    },
    |random, world, point| other_stage(random, world, point),
    |random, world, point| other_stage(random, world, point),
    |random, _, point| random_link(random, point).peer = random.bytes(),
    |random, world, point| {
        point.payload_bytes = world.settings.payload_batch_bytes + random.between(1, 9);
    },
    |random, _, point| add(&mut point.includes, (random.bytes(), random.bytes())),
    |random, _, point| point.evidence.truncate(random.below(3)),
    |random, _, point| point.id.author = random.bytes(),
    |random, world, point| point.id.round = world.settings.genesis_round - random.between(1, 2),
    |_, _, point| point.anchor_time = point.time,
    |_, _, point| point.role = PointRole::Genesis,
    |_, _, point| {
        if let PointRole::AnchorProof { is_last, .. } = &mut point.role {
            *is_last = !*is_last;
        }
    },
    |random, _, point| {
        let pair = (point.id.author, random.bytes());
        add(&mut point.witness, pair);
    },
    |random, _, point| out_of_domain(random, point),
];

/// What follows a proof is no trigger, ends too early, or has another number.
fn other_stage(random: &mut Random, world: &World, point: &mut Point) {
    let sticky = world.settings.sticky_anchors;
    point.role = match point.role {
        PointRole::AnchorTrigger | PointRole::Regular => PointRole::Regular,
        PointRole::AnchorProof { seq_no: 0, .. } | PointRole::Genesis => PointRole::AnchorTrigger,
        PointRole::AnchorProof { .. } => {
            let seq_no = random.between(1, u32::from(sticky)) as u8;
            let other = PointRole::AnchorProof { seq_no, is_last: seq_no == sticky };
            random.pick(&[PointRole::AnchorTrigger, PointRole::Regular, other, other])
        }
    };
}

fn first_proof(world: &World) -> PointRole {
    PointRole::AnchorProof { seq_no: 0, is_last: world.settings.sticky_anchors == 0 }
}

fn add<T: Ord>(rising: &mut Vec<T>, item: T) {
    if let Err(place) = rising.binary_search(&item) {
        rising.insert(place, item);
    }
}

/// A dependency that nobody has.
fn other_digest(random: &mut Random, map: &mut [(Peer, Digest)]) {
    if !map.is_empty() {
        let place = random.below(map.len());
        map[place].1 = random.bytes();
    }
}

/// The author leaves out its previous point.
fn skip_prev(point: &mut Point) {
    let author = point.id.author;
    point.includes.retain(|(peer, _)| *peer != author);
    point.evidence.clear();
}

/// Another previous point.
fn set_prev(random: &mut Random, world: &World, point: &mut Point, digest: Digest) {
    let author = point.id.author;
    skip_prev(point);
    point.includes.push((author, digest));
    point.includes.sort_unstable();
    point.evidence = world.evidence(random, point.id.round, &author);
}

fn random_link<'a>(random: &mut Random, point: &'a mut Point) -> &'a mut AnchorLink {
    if random.chance(1, 2) { &mut point.anchor_proof } else { &mut point.anchor_trigger }
}

/// A link to a genesis point.
fn older_target(random: &mut Random, world: &World, point: &mut Point) {
    let Id { round, digest, .. } = world.genesis(world.genesis_authors[0]).id;
    let author = if world.two_geneses { random.pick(&world.genesis_authors) } else { world.genesis_authors[0] };
    random_link(random, point).to = Some(Id { round, digest, author });
}

/// An indirect target that nobody has, or a round before the right one.
fn other_target(random: &mut Random, point: &mut Point) {
    let (digest, back) = (random.bytes(), random.between(0, 1));
    if let Some(to) = &mut random_link(random, point).to {
        to.digest = digest;
        to.round -= back;
    }
}

fn add_witness(random: &mut Random, world: &World, point: &mut Point) {
    let peers = world.peers(point.id.round - 2);
    if !peers.is_empty() {
        let pair = (random.pick(peers), random.bytes());
        point.witness.retain(|(peer, _)| *peer != pair.0);
        add(&mut point.witness, pair);
    }
}

fn out_of_domain(random: &mut Random, point: &mut Point) {
    match random.below(4) {
        0 => point.id.round = random.between(0, 3),
        1 => point.id.round = 2_147_483_648 + random.between(0, 3),
        2 => point.time = 1 << 63,
        _ => point.anchor_time = u64::MAX,
    }
}
