//! Points that are handed over in parts, by seed: their rows in any order, what isn't read filled with anything, and in half of
//! them one thing or more for which there is a number.

use std::collections::BTreeSet;

use oracle::draft::Draft;
use oracle::file::Case;
use oracle::numbers::{DOMAIN, LAST_ROUND, OUTPUT, RECORD, TWICE, in_domain};
use oracle::value::{AnchorLink, Digest, Id, Peer, Point, PointRole, Through};
use oracle::{read, write};

use crate::case;
use crate::random::Random;

/// The numbers, in the order in which they are tested.
const NUMBERS: [u8; 4] = [RECORD, DOMAIN, TWICE, OUTPUT];
const GREATEST_TIME: u64 = i64::MAX as u64;

/// What is handed over at a place.
pub struct Drafted {
    pub draft: Draft,
    /// The length of the output.
    pub room: usize,
    /// The point whose parts these are, or the number for what was put wrong in them.
    pub expected: Result<Point, u8>,
    /// Whether more than one thing was put wrong.
    pub is_wrong_twice: bool,
}

/// The draft of this seed at this place. Drafts don't depend on one another.
pub fn drafted(seed: u64, place: u64) -> Drafted {
    let random = &mut Random::new(seed, place);
    let point = from_case(random, seed, place).unwrap_or_else(|| point(random));
    let record = write::record(&point);
    let mut draft =
        if random.chance(1, 2) { Draft::of(&point) } else { Draft::of_record(&record).expect("it was written so") };
    for (map, width) in [(&mut draft.includes, 64), (&mut draft.witness, 64), (&mut draft.evidence, 32)] {
        arrange(random, map, width);
    }
    if random.chance(7, 8) {
        fill_unread(random, &mut draft);
    }
    let faults = faults(random);
    // the number that is tested first is seen to last, so that nothing undoes it
    for number in faults.iter().rev() {
        match *number {
            RECORD => spoil_map(random, &mut draft),
            DOMAIN => leave_domain(random, &mut draft),
            TWICE => name_twice(random, &mut draft),
            _ => {}
        }
    }
    let short = faults.contains(&OUTPUT);
    let length = draft.composed(usize::MAX).map_or(record.len(), |record| record.len());
    let room = if short { shorter(random, length) } else { length + random.pick(&[0, 0, 0, 1, 2, 31, 64, 1_000]) };
    let expected = faults.first().map_or(Ok(point), |number| Err(*number));
    Drafted { draft, room, expected, is_wrong_twice: faults.len() > 1 }
}

/// None in half of all, else one, two or more, rising.
fn faults(random: &mut Random) -> Vec<u8> {
    let mut numbers = NUMBERS;
    random.shuffle(&mut numbers);
    let count = random.pick(&[0, 0, 0, 0, 0, 0, 1, 1, 2, 2, 3, 4]);
    let mut faults = numbers[..count].to_vec();
    faults.sort_unstable();
    faults
}

/// In one of 16 places the point of a generated case, where it can be read and lies in the domain.
fn from_case(random: &mut Random, seed: u64, place: u64) -> Option<Point> {
    if !random.chance(1, 16) {
        return None;
    }
    let (Case::Verify { record, .. } | Case::Judge { record, .. }) = case(seed, place);
    read::record(&record).filter(in_domain)
}

fn point(random: &mut Random) -> Point {
    let [includes, witness] = [(); 2].map(|()| map(random));
    let evidence = if random.chance(1, 4) { includes.iter().map(|pair| pair.0).collect() } else { peers(random) };
    let [anchor_proof, anchor_trigger] = [(); 2].map(|()| link(random, &includes));
    let any = random.between(4, LAST_ROUND);
    let round = random.pick(&[4, 5, 110, 110, LAST_ROUND, any]);
    let [time, anchor_time] = [(); 2].map(|()| {
        let any = random.number() >> 1;
        random.pick(&[0, 1_700_000_000_000, GREATEST_TIME, any])
    });
    let numbers = [0, 1, u32::MAX, random.number() as u32];
    Point {
        id: Id { round, ..id(random) },
        payload_len: random.pick(&numbers),
        payload_bytes: random.pick(&numbers),
        includes,
        witness,
        evidence,
        anchor_proof,
        anchor_trigger,
        role: role(random),
        time,
        anchor_time,
    }
}

/// An id of any round: nothing is tested of a target's.
fn id(random: &mut Random) -> Id {
    let any = random.number() as u32;
    let round = random.pick(&[0, 3, 4, 109, LAST_ROUND + 1, any]);
    Id { round, digest: random.bytes(), author: random.bytes() }
}

fn role(random: &mut Random) -> PointRole {
    match random.below(4) {
        0 => PointRole::Regular,
        1 => PointRole::AnchorProof { seq_no: random.number() as u8, is_last: random.chance(1, 2) },
        2 => PointRole::AnchorTrigger,
        _ => PointRole::Genesis,
    }
}

fn link(random: &mut Random, includes: &[(Peer, Digest)]) -> AnchorLink {
    let through = random.pick(&[Through::Includes, Through::Witness]);
    let named = includes.first().map(|pair| pair.0).filter(|_| random.chance(1, 2));
    let peer = named.unwrap_or_else(|| random.bytes());
    AnchorLink { through, peer, to: random.chance(1, 2).then(|| id(random)) }
}

/// Rising peers with digests, some of which are equal.
fn map(random: &mut Random) -> Vec<(Peer, Digest)> {
    let one = random.bytes();
    let peers = peers(random);
    peers.into_iter().map(|peer| (peer, if random.chance(1, 8) { one } else { random.bytes() })).collect()
}

/// Rising peers, mostly few. Some differ in their last bytes alone.
fn peers(random: &mut Random) -> Vec<Peer> {
    let count = match random.below(64) {
        0 => random.below(256),
        1 => random.pick(&[253, 254, 255]),
        _ => random.pick(&[0, 0, 1, 1, 2, 2, 3, 3, 4, 5, 7, 13]),
    };
    let (front, alike) = (random.bytes(), random.pick(&[0, 0, 0, 7, 8, 16, 24, 31]));
    let mut peers = BTreeSet::new();
    while peers.len() < count {
        let mut peer = random.bytes();
        peer[..alike].copy_from_slice(&front[..alike]);
        peers.insert(peer);
    }
    peers.into_iter().collect()
}

/// How many rows a map has.
fn rows(map: &[u8], width: usize) -> usize {
    map.len() / width
}

/// The rows of a map in another order, or in the same.
fn arrange(random: &mut Random, map: &mut [u8], width: usize) {
    let count = rows(map, width);
    if count == 0 {
        return;
    }
    let mut order: Vec<usize> = (0..count).collect();
    match random.below(6) {
        0 => {}
        1 => order.reverse(),
        2 => order.rotate_left(random.below(count)),
        3 => order.swap(random.below(count), random.below(count)),
        _ => random.shuffle(&mut order),
    }
    for blocks in map.as_chunks_mut::<32>().0.chunks_mut(count) {
        let before = blocks.to_vec();
        blocks.iter_mut().zip(&order).for_each(|(block, from)| *block = before[*from]);
    }
}

/// Anything in the targets of direct links, and beside a role other than a proof's.
fn fill_unread(random: &mut Random, draft: &mut Draft) {
    for link in [&mut draft.anchor_proof, &mut draft.anchor_trigger] {
        if link[0] == 0 {
            let noise = [random.bytes(), random.bytes(), random.bytes()];
            link[34..].copy_from_slice(&noise.as_flattened()[..68]);
        }
    }
    if draft.role != 1 {
        [draft.seq_no, draft.is_last] = [random.number() as u8, random.number() as u8];
    }
}

/// A map that is no whole rows, or has more than 255.
fn spoil_map(random: &mut Random, draft: &mut Draft) {
    let (map, width) = pick_map(random, draft);
    if random.chance(1, 3) {
        let count = random.pick(&[256, 256, 257, 300, 1_024]);
        map.resize_with(count * width, || random.number() as u8);
        return;
    }
    let others = [1, 31, 32, 33, 63].map(|bytes| bytes % width);
    let extra = random.pick(&others).max(1);
    if random.chance(1, 2) {
        map.resize(map.len() + extra, 7);
    } else {
        map.truncate(map.len().saturating_sub(extra));
        if map.len() % width == 0 {
            map.push(7);
        }
    }
}

fn pick_map<'a>(random: &mut Random, draft: &'a mut Draft) -> (&'a mut Vec<u8>, usize) {
    match random.below(3) {
        0 => (&mut draft.includes, 64),
        1 => (&mut draft.witness, 64),
        _ => (&mut draft.evidence, 32),
    }
}

/// A round or a time outside the domain, or a link or a role that there isn't.
fn leave_domain(random: &mut Random, draft: &mut Draft) {
    let any = random.number() | 1 << 63;
    let late = random.pick(&[GREATEST_TIME + 1, u64::MAX, any]);
    match random.below(9) {
        0 => draft.id[..4].copy_from_slice(&random.pick(&[0_u32, 3, LAST_ROUND + 1, u32::MAX]).to_le_bytes()),
        1 => draft.time = late,
        2 => draft.anchor_time = late,
        3 => draft.anchor_proof[0] = unknown(random, 2),
        4 => draft.anchor_proof[1] = unknown(random, 2),
        5 => draft.anchor_trigger[0] = unknown(random, 2),
        6 => draft.anchor_trigger[1] = unknown(random, 2),
        7 => draft.role = unknown(random, 4),
        _ => (draft.role, draft.is_last) = (1, unknown(random, 2)),
    }
}

fn unknown(random: &mut Random, least: u32) -> u8 {
    let any = random.between(least, 255);
    random.pick(&[least, least, 255, any]) as u8
}

/// A peer stands twice in a map, beside each other or not, with the same digest or another.
fn name_twice(random: &mut Random, draft: &mut Draft) {
    let (map, width) = pick_map(random, draft);
    let least = 2 * width;
    if map.len() < least || map.len() % width != 0 {
        *map = (0..least).map(|_| random.number() as u8).collect();
    }
    let count = rows(map, width);
    let from = random.below(count);
    let next = if random.chance(1, 2) { 0 } else { random.below(count - 1) };
    let to = (from + 1 + next) % count;
    let (peers, digests) = map.as_chunks_mut::<32>().0.split_at_mut(count);
    peers[to] = peers[from];
    if random.chance(1, 2) && !digests.is_empty() {
        digests[to] = digests[from];
    }
}

/// A length that is too short, mostly by one.
fn shorter(random: &mut Random, length: usize) -> usize {
    let any = random.below(length);
    random.pick(&[length - 1, length - 1, 0, any])
}
