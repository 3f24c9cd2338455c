//! Damaged books.

use book::{Book, LONGEST, MOST, SETTINGS};
use cases::random::Random;

/// What stands in front of tag 33's content, and its length.
const HEAD: usize = 3;
const CONTENT: usize = 105;
/// Where the digest stands in an entry: after tag 1, its length and the round.
const DIGEST: usize = 7;

/// The book's bytes with one damage: a byte changed anywhere or in a telling place, cut off, over-long, an entry
/// repeated, or two that change places.
pub fn damaged(random: &mut Random, book: &Book) -> Vec<u8> {
    let mut bytes = book.bytes();
    let entries = entries(book);
    if book.entries().len() == MOST && random.chance(1, 4) {
        repeat(random, &mut bytes, &entries, book.used());
        return bytes;
    }
    match random.below(16) {
        0..3 => change(random, &mut bytes, 0, book.length()),
        3 | 4 => change(random, &mut bytes, 0, book.used()),
        5 => change(random, &mut bytes, 0, SETTINGS),
        6 => bytes.truncate(random.below(book.used())),
        7 => bytes.truncate(book.used() + random.below(book.length() - book.used() + 1)),
        8 => lengthen(random, &mut bytes),
        _ if entries.is_empty() => bytes[0] ^= 1,
        9 => repeat(random, &mut bytes, &entries, book.used()),
        10 => exchange(random, &mut bytes, &entries),
        _ => change_entry(random, &mut bytes, &entries),
    }
    bytes
}

/// Where each entry starts, where its tag 33 stands and where it ends.
fn entries(book: &Book) -> Vec<[usize; 3]> {
    let mut start = SETTINGS;
    let place = |entry: &book::Entry| {
        let places = [start, start + entry.record.len(), start + entry.length()];
        start = places[2];
        places
    };
    book.entries().iter().map(place).collect()
}

/// Changes a byte from `start` on and before `end`.
fn change(random: &mut Random, bytes: &mut [u8], start: usize, end: usize) {
    if end > start {
        let place = start + random.below(end - start);
        let (old, other) = (bytes[place], random.number() as u8);
        let flipped = old ^ (1 << random.below(8));
        bytes[place] = random.pick(&[flipped, flipped, old.wrapping_add(1), old.wrapping_sub(1), other, 0, 255]);
    }
}

/// Zeros after the slice, or something else; now and then the slice is too long for a book.
fn lengthen(random: &mut Random, bytes: &mut Vec<u8>) {
    let more = random.pick(&[1, 3, 108, 1_000]);
    bytes.resize(bytes.len() + more, 0);
    match random.below(40) {
        0 => bytes.resize(LONGEST, 0),
        1 => bytes.resize(LONGEST + 1, 0),
        2..20 => *bytes.last_mut().expect("it was lengthened") = 1,
        _ => {}
    }
}

/// An entry stands once more after all others, or another version of its point.
fn repeat(random: &mut Random, bytes: &mut Vec<u8>, entries: &[[usize; 3]], used: usize) {
    let [start, _, end] = random.pick(entries);
    let mut copy = bytes[start..end].to_vec();
    copy[DIGEST] ^= random.below(2) as u8;
    bytes.resize(bytes.len().max(used + copy.len()), 0);
    bytes[used..used + copy.len()].copy_from_slice(&copy);
}

/// An entry goes after the one that follows it.
fn exchange(random: &mut Random, bytes: &mut [u8], entries: &[[usize; 3]]) {
    let place = random.below(entries.len());
    let [start, _, middle] = entries[place];
    let end = entries.get(place + 1).map_or(middle, |next| next[2]);
    bytes[start..end].rotate_left(middle - start);
}

/// State, mark, reason, root or a number of the record's.
fn change_entry(random: &mut Random, bytes: &mut [u8], entries: &[[usize; 3]]) {
    let [start, tail, end] = random.pick(entries);
    let content = tail + HEAD;
    match random.below(10) {
        0 | 1 => bytes[content] = random.below(6) as u8,
        2 | 3 => bytes[content + 1] = random.pick(&[0, 1, 1, 2]),
        4 => bytes[content + 2] = random.pick(&[0, 1, 16, 17, 19, 20, 21]),
        5 => set_state(random, &mut bytes[content..content + CONTENT]),
        6 => change(random, bytes, content, end),
        7 => bytes[start + 3..start + 7].copy_from_slice(&random.pick(&[3_u32, 4, 1 << 31, 12]).to_le_bytes()),
        8 => bytes[tail - 1] = random.pick(&[0, 0x7F, 0x80]),
        _ => change(random, bytes, start, tail),
    }
}

/// Another state, as it may stand in an entry: whether it is what judging gave is not tested.
fn set_state(random: &mut Random, content: &mut [u8]) {
    let state = random.below(4) as u8;
    content.fill(0);
    content[0] = state;
    content[1] = random.below(2) as u8;
    content[2] = match state {
        2 => random.between(1, 20) as u8,
        3 => random.between(1, 16) as u8,
        _ => 0,
    };
    if state == 1 {
        let round = random.pick(&[3, 4, 5, 20, 0x7FFF_FFFF, 1 << 31]);
        content[3..7].copy_from_slice(&u32::to_le_bytes(round));
        content[71] = random.between(1, 20) as u8;
        content[72] = random.pick(&[0, 1, 1, 2]);
    }
}
