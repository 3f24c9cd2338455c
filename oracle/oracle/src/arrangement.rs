//! How a map of peers and digests lies in tags 3 and 4 of a record, and bytes moved from one arrangement to the other.
//!
//! Moving knows fields alone, and no peer: what can't be read in one arrangement is moved too, and can't be read in the other.

use crate::numbers::{OUTPUT, RECORD};
use crate::{read, write};

#[derive(Clone, Copy, PartialEq, Eq, Debug)]
pub enum Arrangement {
    /// Each peer with its digest, as before ticket U5.
    Pairs,
    /// All peers, then their digests in the same order.
    Columns,
}

/// The last tag of a schedule and of a record; those of the maps stand between.
const LAST_KNOWN: u8 = 35;
const TIMES: u8 = 9;

impl Arrangement {
    pub const ALL: [Self; 2] = [Self::Pairs, Self::Columns];

    pub fn other(self) -> Self {
        match self {
            Self::Pairs => Self::Columns,
            Self::Columns => Self::Pairs,
        }
    }
}

/// A record in the other arrangement, for an output of this length; else the number.
pub fn converted(record: &[u8], from: Arrangement, output: usize) -> Result<Vec<u8>, u8> {
    let point = read::record_in(from, record).ok_or(RECORD)?;
    let converted = write::record_in(from.other(), &point);
    if converted.len() <= output { Ok(converted) } else { Err(OUTPUT) }
}

/// Moves the maps of all records in a row of fields: of a record, a list or a book.
pub fn move_maps(mut bytes: &mut [u8], to: Arrangement) {
    while let Some((_, rest)) = move_field(bytes, to) {
        bytes = rest;
    }
}

/// The same of a feed: settings, a schedule, and records with a leader byte in front of each.
pub fn move_feed(bytes: &mut [u8], to: Arrangement) {
    let mut left = move_up_to(LAST_KNOWN, bytes, to);
    while let Some((_, record)) = left.and_then(<[u8]>::split_first_mut) {
        left = move_up_to(TIMES, record, to);
    }
}

/// What stands after the next field with this tag.
fn move_up_to(last: u8, mut bytes: &mut [u8], to: Arrangement) -> Option<&mut [u8]> {
    loop {
        let (tag, rest) = move_field(bytes, to)?;
        if tag == last {
            return Some(rest);
        }
        bytes = rest;
    }
}

/// Moves the field at the front, if it is a map's; gives its tag and what stands after it. The zeros after a book's entries
/// are no field.
fn move_field(bytes: &mut [u8], to: Arrangement) -> Option<(u8, &mut [u8])> {
    let (&mut [tag, low, high], rest) = bytes.split_first_chunk_mut()?;
    let (content, rest) = rest.split_at_mut_checked(usize::from(u16::from_le_bytes([low, high])))?;
    if matches!(tag, 3 | 4) {
        move_map(content, to);
    }
    (tag != 0).then_some((tag, rest))
}

/// A content that is not whole rows stays.
fn move_map(content: &mut [u8], to: Arrangement) {
    let (rows, []) = content.as_chunks_mut::<64>() else { return };
    let count = rows.len();
    let (ids, _) = rows.as_flattened_mut().as_chunks_mut::<32>();
    let before = ids.to_vec();
    for row in 0..count {
        let (pair, column) = ([2 * row, 2 * row + 1], [row, count + row]);
        let (from, to) = if to == Arrangement::Columns { (pair, column) } else { (column, pair) };
        from.into_iter().zip(to).for_each(|(from, to)| ids[to] = before[from]);
    }
}
