//! Cases with damaged bytes.

use cases::random::Random;
use oracle::arrangement::{Arrangement, move_maps};
use oracle::file::Case;

use crate::kind::as_judge;

/// The case of this seed at this place, damaged in what verifying reads.
pub fn damaged(seed: u64, place: u64) -> Case {
    let mut case = cases::case(seed, place);
    let mut random = Random::new(!seed, place);
    damage_inputs(&mut random, &mut case);
    case
}

/// The case of this seed at this place as a judge case, damaged in any of what judging reads.
pub fn judge_damaged(seed: u64, place: u64) -> Case {
    let mut case = as_judge(cases::case(seed, place));
    let mut random = Random::new(!seed, place);
    if random.chance(1, 3) {
        damage_inputs(&mut random, &mut case);
        return case;
    }
    let Case::Judge { leader, presence, list, .. } = &mut case else { return case };
    if random.chance(1, 8) {
        *leader = flag(&mut random);
    }
    if random.chance(1, 8) {
        *presence = flag(&mut random);
    }
    for _ in 0..random.pick(&[1, 1, 1, 2, 3]) {
        damage_list(&mut random, list);
    }
    case
}

fn damage_inputs(random: &mut Random, case: &mut Case) {
    let (Case::Verify { settings, schedule, record, peer_buffer }
    | Case::Judge { settings, schedule, record, peer_buffer, .. }) = case;
    let buffer_alone = random.chance(1, 16);
    if buffer_alone || random.chance(1, 16) {
        *peer_buffer = buffer_length(random);
    }
    if buffer_alone {
        return;
    }
    let bytes = match random.below(6) {
        0 => settings,
        1 | 2 => schedule,
        _ => record,
    };
    for _ in 0..random.pick(&[1, 1, 1, 2, 3]) {
        damage(random, bytes);
    }
}

/// In the domain, just outside it, or anything.
pub fn flag(random: &mut Random) -> u8 {
    let any = random.number() as u8;
    random.pick(&[0, 1, 2, 3, 4, 255, any])
}

/// Around the least length that is enough.
pub fn buffer_length(random: &mut Random) -> u32 {
    let near = random.between(8_160 - 40, 8_160 + 40);
    random.pick(&[near, 8_158, 8_159, 8_160, 8_161, 0, 1, 32, 16_320, 65_536])
}

/// Around the length of the record that is to be converted, or any.
pub fn output_length(random: &mut Random, record: usize) -> usize {
    let any = random.below(2 * record + 1);
    random.pick(&[record, record, record + 1, record + 100, record.saturating_sub(1), 0, any])
}

/// A list's entries are damaged too, and the heads of its fields more often than the rest.
pub fn damage_list(random: &mut Random, list: &mut Vec<u8>) {
    match random.below(8) {
        0..3 => change_head(random, list),
        3 => repeat_entry(random, list),
        4 => remove_entry(random, list),
        5 => move_entry(random, list),
        _ => damage(random, list),
    }
}

/// One damage to bytes that are laid out in fields.
pub fn damage(random: &mut Random, bytes: &mut Vec<u8>) {
    match random.below(18) {
        0..5 => change_byte(random, bytes),
        5..8 => change_number(random, bytes),
        8 => cut_end(random, bytes),
        9 => cut_inside(random, bytes),
        10 => add_end(random, bytes),
        11 => add_inside(random, bytes),
        12..14 => change_length(random, bytes),
        14 => change_rows(random, bytes),
        15 => repeat_row(random, bytes),
        16 => rearrange(random, bytes),
        _ => repeat_field(random, bytes),
    }
}

fn change_byte(random: &mut Random, bytes: &mut [u8]) {
    if bytes.is_empty() {
        return;
    }
    let place = random.below(bytes.len());
    change_at(random, bytes, place);
}

/// Changes a field's tag, its length or one of its first bytes.
fn change_head(random: &mut Random, bytes: &mut [u8]) {
    let fields = fields(bytes);
    if fields.is_empty() {
        return;
    }
    let field = random.pick(&fields);
    let place = random.pick(&[0, 1, 3, 3, 4, 4, 5, 5, 6, 6]).min(field.length + 2);
    change_at(random, bytes, field.start + place);
}

fn change_at(random: &mut Random, bytes: &mut [u8], place: usize) {
    let old = bytes[place];
    let flipped = old ^ (1 << random.below(8));
    let other = random.number() as u8;
    bytes[place] = random.pick(&[flipped, flipped, other, 0, 255, old.wrapping_add(1), old.wrapping_sub(1)]);
}

/// Writes a number at a limit over a field's first bytes, or over the eight after them.
fn change_number(random: &mut Random, bytes: &mut [u8]) {
    let fields = fields(bytes);
    if fields.is_empty() {
        return;
    }
    let place = random.pick(&fields).content() + random.pick(&[0, 0, 4, 8]);
    let short = random.pick(&[0_u32, 1, 3, 4, 5, 0x7FFF_FFFF, 0x8000_0000, 0xFFFF_FFFF]).to_le_bytes();
    let long = random.pick(&[0_u64, 1, i64::MAX as u64, 1 << 63, u64::MAX]).to_le_bytes();
    let number = if random.chance(1, 2) { &short[..] } else { &long[..] };
    if let Some(target) = bytes.get_mut(place..place + number.len()) {
        target.copy_from_slice(number);
    }
}

fn cut_end(random: &mut Random, bytes: &mut Vec<u8>) {
    let fields = fields(bytes);
    let length = if random.chance(1, 2) || fields.is_empty() {
        random.below(bytes.len() + 1)
    } else {
        random.pick(&fields).start + random.below(4)
    };
    bytes.truncate(length);
}

fn cut_inside(random: &mut Random, bytes: &mut Vec<u8>) {
    let start = random.below(bytes.len() + 1);
    let length = random.pick(&[1, 2, 3, 32, 64, 68]);
    bytes.drain(start..bytes.len().min(start + length));
}

fn add_end(random: &mut Random, bytes: &mut Vec<u8>) {
    let count = random.pick(&[1, 1, 2, 3, 32, 64]);
    bytes.extend_from_slice(&random_bytes(random, count));
}

fn add_inside(random: &mut Random, bytes: &mut Vec<u8>) {
    let place = random.below(bytes.len() + 1);
    let count = random.pick(&[1, 2, 3, 32, 64]);
    let added = random_bytes(random, count);
    bytes.splice(place..place, added);
}

fn random_bytes(random: &mut Random, count: usize) -> Vec<u8> {
    [random.bytes(), random.bytes()].as_flattened()[..count].to_vec()
}

/// A field's length is changed; in half of the cases its content is as long.
fn change_length(random: &mut Random, bytes: &mut Vec<u8>) {
    let fields = fields(bytes);
    if fields.is_empty() {
        return;
    }
    let field = random.pick(&fields);
    let change = random.pick(&[1, 2, 3, 32, 64]);
    let length = if random.chance(1, 2) { field.length + change } else { field.length.saturating_sub(change) };
    if random.chance(1, 2) {
        let mut content = bytes[field.content()..field.end()].to_vec();
        content.resize(length, random.number() as u8);
        replace(bytes, field, &content);
    } else {
        set_length(bytes, field, length);
    }
}

/// A field's content becomes rising peers, as many as a map may hold or one to spare; in a map each with a digest.
fn change_rows(random: &mut Random, bytes: &mut Vec<u8>) {
    let fields = fields(bytes);
    if fields.is_empty() {
        return;
    }
    let field = random.pick(&fields);
    let head = if bytes[field.start] == 34 { 4 } else { 0 };
    let count = random.pick(&[0, 1, 2, 3, 253, 254, 255, 256, 257]);
    let start = bytes[field.content()..field.end()].iter().copied().take(head);
    let mut content: Vec<u8> = start.collect();
    let mut rows: Vec<[u8; 32]> = (0..count).map(|_| random.bytes()).collect();
    rows.sort_unstable();
    content.extend_from_slice(rows.as_flattened());
    if is_map(field) {
        content.resize(content.len() + 32 * count, 7);
    }
    replace(bytes, field, &content);
}

fn is_map(field: Field) -> bool {
    matches!(field.tag, 3 | 4)
}

/// The peers and digests of a map lie as in records before: each peer with its digest.
fn rearrange(random: &mut Random, bytes: &mut [u8]) {
    let maps: Vec<Field> = fields(bytes).into_iter().filter(|field| is_map(*field) && field.length > 64).collect();
    if !maps.is_empty() {
        let map = random.pick(&maps);
        move_maps(&mut bytes[map.start..map.end()], Arrangement::Pairs);
    }
}

/// A peer or a digest, or two of them, stand once more in place of what is after them.
fn repeat_row(random: &mut Random, bytes: &mut [u8]) {
    let width = random.pick(&[32, 64]);
    let long: Vec<Field> = fields(bytes).into_iter().filter(|field| field.length >= 2 * width).collect();
    if long.is_empty() {
        return;
    }
    let field = random.pick(&long);
    let head = field.length % 32;
    let rows = (field.length - head) / width;
    let row = field.content() + head + random.below(rows - 1) * width;
    bytes.copy_within(row..row + width, row + width);
}

/// A field stands twice, or in another one's place.
fn repeat_field(random: &mut Random, bytes: &mut Vec<u8>) {
    let fields = fields(bytes);
    if fields.is_empty() {
        return;
    }
    let (from, to) = (random.pick(&fields), random.pick(&fields));
    let copy = bytes[from.start..from.end()].to_vec();
    let end = if random.chance(1, 2) { to.end() } else { to.start };
    bytes.splice(to.start..end, copy);
}

/// An entry stands once more, after any other.
fn repeat_entry(random: &mut Random, list: &mut Vec<u8>) {
    let entries = entries(list);
    if entries.is_empty() {
        return;
    }
    let (from, to) = (random.pick(&entries), random.pick(&entries));
    let copy = list[from.0..from.1].to_vec();
    list.splice(to.1..to.1, copy);
}

fn remove_entry(random: &mut Random, list: &mut Vec<u8>) {
    let entries = entries(list);
    if entries.is_empty() {
        return;
    }
    let (start, end) = random.pick(&entries);
    list.drain(start..end);
}

/// An entry goes to the end or to the front.
fn move_entry(random: &mut Random, list: &mut [u8]) {
    let entries = entries(list);
    if entries.is_empty() {
        return;
    }
    let (start, end) = random.pick(&entries);
    if random.chance(1, 2) {
        list[start..].rotate_left(end - start);
    } else {
        list[..end].rotate_right(end - start);
    }
}

/// Where each entry of a list starts and ends: at tag 19, or at tag 16 without 19 before it.
fn entries(list: &[u8]) -> Vec<(usize, usize)> {
    let fields = fields(list);
    let tag = |place: usize| list[fields[place].start];
    let starts = |place: &usize| tag(*place) == 19 || (tag(*place) == 16 && (*place == 0 || tag(*place - 1) != 19));
    let starts: Vec<usize> = (0..fields.len()).filter(starts).map(|place| fields[place].start).collect();
    let ends = starts.iter().skip(1).copied().chain([list.len()]);
    starts.iter().copied().zip(ends).collect()
}

/// A field's tag with its place, and its content's length.
#[derive(Clone, Copy)]
pub struct Field {
    pub tag: u8,
    start: usize,
    length: usize,
}

impl Field {
    pub fn content(&self) -> usize {
        self.start + 3
    }

    pub fn end(&self) -> usize {
        self.content() + self.length
    }
}

/// The fields that stand whole in the bytes.
pub fn fields(bytes: &[u8]) -> Vec<Field> {
    let mut fields = Vec::new();
    let mut start = 0;
    while let Some(head) = bytes.get(start..start + 3) {
        let field = Field { tag: head[0], start, length: usize::from(u16::from_le_bytes([head[1], head[2]])) };
        if field.end() > bytes.len() {
            break;
        }
        fields.push(field);
        start = field.end();
    }
    fields
}

fn set_length(bytes: &mut [u8], field: Field, length: usize) {
    bytes[field.start + 1..field.content()].copy_from_slice(&(length as u16).to_le_bytes());
}

fn replace(bytes: &mut Vec<u8>, field: Field, content: &[u8]) {
    set_length(bytes, field, content.len());
    bytes.splice(field.content()..field.end(), content.iter().copied());
}
