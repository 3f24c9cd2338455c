//! Cases that no generator would make: parts of two cases put together, and bytes of any kind.

use cases::random::Random;
use compare::damage::{buffer_length, damage, damage_list, flag};
use compare::kind::{as_judge, as_verify};
use oracle::file::Case;

/// A case of which each part comes from one of two; in half of the cases one part is itself put together of both.
pub fn spliced(random: &mut Random, seed: u64, place: u64) -> Case {
    let mut case = as_judge(cases::case(seed, place));
    let mut other = as_judge(cases::case(seed, place ^ (1 << random.below(40))));
    for (part, other) in parts(&mut case).into_iter().zip(parts(&mut other)) {
        match random.below(8) {
            0 | 1 => std::mem::swap(part, other),
            2 => *part = joined(random, part, other),
            _ => {}
        }
    }
    if random.chance(1, 4) { as_verify(case) } else { case }
}

/// A case of which some parts are any bytes, or damaged many times, and any flags and lengths.
pub fn wild(random: &mut Random, case: Case) -> Case {
    let mut case = as_judge(case);
    for part in parts(&mut case) {
        match random.below(6) {
            0 => *part = any(random),
            1 => (0..random.between(2, 12)).for_each(|_| damage(random, part)),
            2 => (0..random.between(1, 4)).for_each(|_| damage_list(random, part)),
            _ => {}
        }
    }
    let Case::Judge { leader, presence, peer_buffer, .. } = &mut case else { return case };
    if random.chance(1, 4) {
        (*leader, *presence) = (flag(random), flag(random));
    }
    if random.chance(1, 4) {
        *peer_buffer = buffer_length(random);
    }
    if random.chance(1, 4) { as_verify(case) } else { case }
}

fn parts(case: &mut Case) -> Vec<&mut Vec<u8>> {
    match case {
        Case::Verify { settings, schedule, record, .. } => vec![settings, schedule, record],
        Case::Judge { settings, schedule, record, list, .. } => vec![settings, schedule, record, list],
    }
}

/// The front of one and the rest of another, cut at two places or at one.
pub fn joined(random: &mut Random, front: &[u8], back: &[u8]) -> Vec<u8> {
    let end = random.below(front.len() + 1);
    let start = if random.chance(1, 2) { random.below(back.len() + 1) } else { end.min(back.len()) };
    [&front[..end], &back[start..]].concat()
}

/// Any bytes, or fields of any content under tags that are in use, or one byte again and again.
pub fn any(random: &mut Random) -> Vec<u8> {
    let tag = random.pick(&[0, 1, 32, 255]);
    match random.below(4) {
        0 => (0..random.below(64)).map(|_| random.number() as u8).collect(),
        1 => vec![tag; random.pick(&[0, 1, 3, 47, 4_095, 4_096, 4_097, 8_160])],
        2 => Vec::new(),
        _ => (0..random.below(12)).flat_map(|_| field(random)).collect(),
    }
}

fn field(random: &mut Random) -> Vec<u8> {
    let tag = random.pick(&[1, 2, 3, 4, 5, 6, 7, 8, 9, 16, 17, 18, 19, 32, 33, 34, 35]);
    let length = random.pick(&[0, 1, 3, 4, 8, 16, 32, 34, 44, 64, 68, 69, 102, 105]);
    let content = [random.bytes(), random.bytes(), random.bytes(), random.bytes()];
    let mut field = vec![tag, length as u8, 0];
    field.extend_from_slice(&content.as_flattened()[..length]);
    field
}
