//! Faults in the bytes themselves.

use oracle::file::Case;

use crate::random::Random;

/// The parts of a case that hold fields.
#[derive(Clone, Copy)]
pub enum Part {
    Settings,
    Schedule,
    Record,
    List,
}

fn part(case: &mut Case, part: Part) -> Option<&mut Vec<u8>> {
    Some(match (case, part) {
        (Case::Verify { settings, .. } | Case::Judge { settings, .. }, Part::Settings) => settings,
        (Case::Verify { schedule, .. } | Case::Judge { schedule, .. }, Part::Schedule) => schedule,
        (Case::Verify { record, .. } | Case::Judge { record, .. }, Part::Record) => record,
        (Case::Judge { list, .. }, Part::List) => list,
        (Case::Verify { .. }, Part::List) => return None,
    })
}

/// Breaks one part: cut short, a byte after, a tag, a length, a flag, the order of peers or of fields.
pub fn spoil(random: &mut Random, case: &mut Case, which: Part) {
    let Some(bytes) = part(case, which) else { return };
    let fields = fields(bytes);
    match random.below(6) {
        0 => bytes.truncate(random.below(bytes.len().max(1))),
        1 => bytes.push(random.number() as u8),
        _ if fields.is_empty() => bytes.push(random.number() as u8),
        2 => bytes[random.pick(&fields).0] ^= 1 << random.below(6),
        3 => lengthen(bytes, random.pick(&fields)),
        4 => swap_fields(bytes, &fields, random.below(fields.len())),
        _ => repeat_content(random, bytes, random_content(&fields)),
    }
}

/// Place and length of each field.
fn fields(bytes: &[u8]) -> Vec<(usize, usize)> {
    let mut fields = Vec::new();
    let mut place = 0;
    while let Some(head) = bytes.get(place..place + 3) {
        let length = 3 + usize::from(u16::from_le_bytes([head[1], head[2]]));
        fields.push((place, length));
        place += length;
    }
    fields
}

/// A zero after the content, counted in its length.
fn lengthen(bytes: &mut Vec<u8>, (place, length): (usize, usize)) {
    let content = (length - 3 + 1) as u16;
    bytes[place + 1..place + 3].copy_from_slice(&content.to_le_bytes());
    bytes.insert(place + length, 0);
}

fn swap_fields(bytes: &mut [u8], fields: &[(usize, usize)], first: usize) {
    let (place, length) = fields[first];
    let next = fields.get(first + 1).map_or(0, |(_, length)| *length);
    bytes[place..place + length + next].rotate_left(length);
}

/// The longest field: a map, where there is one.
fn random_content(fields: &[(usize, usize)]) -> (usize, usize) {
    fields.iter().copied().max_by_key(|(_, length)| *length).unwrap_or((0, 0))
}

/// Copies 32 bytes of a content over the 32 after them: a map no longer rises, or a digest stands twice; a short content
/// gets a byte of high value.
fn repeat_content(random: &mut Random, bytes: &mut [u8], (place, length): (usize, usize)) {
    let content = place + 3..place + length;
    if content.len() >= 128 {
        let first = content.start + random.below((content.len() - 96) / 32) * 32;
        bytes.copy_within(first..first + 64, first + 32);
    } else if !content.is_empty() {
        bytes[content.start + random.below(content.len())] |= 0xF0;
    }
}
