//! Stored records, brought from one arrangement to the other by the library's calls.

use std::fmt::{self, Display, Formatter};

use crate::arrangement::Arrangement;
use crate::feed::{Feed, further};

/// A record that can't be converted.
pub struct Bad {
    /// Its place among the records, counted from 1.
    place: usize,
    /// The arrangement that it should have.
    from: Arrangement,
    /// Whether it can be read in the other one.
    is_other: bool,
    /// What of it can't be read, or why the call refused it.
    what: String,
}

/// The bytes of a file of records, one after the other, with each record in this arrangement.
pub fn convert_records(bytes: &[u8], to: Arrangement) -> Result<Vec<u8>, Bad> {
    converted(bytes, 0, 0, to)
}

/// The bytes of a feed, with each record in this arrangement. Settings, schedule and leader bytes stay.
pub fn convert_feed(feed: &Feed<'_>, to: Arrangement) -> Result<Vec<u8>, Bad> {
    converted(feed.bytes, feed.points_at(), 1, to)
}

/// The bytes with each record converted: those before the first record stay, and so do n before each.
fn converted(bytes: &[u8], front: usize, before: usize, to: Arrangement) -> Result<Vec<u8>, Bad> {
    let mut converted = bytes[..front].to_vec();
    let mut place = 0;
    while converted.len() < bytes.len() {
        place += 1;
        let at = converted.len() + before;
        converted.extend(&bytes[converted.len()..at]);
        converted.extend(record(&bytes[at..], at, place, to)?);
    }
    Ok(converted)
}

/// The record at the front of some bytes, which stand at a place of their file, converted.
fn record(bytes: &[u8], at: usize, place: usize, to: Arrangement) -> Result<Vec<u8>, Bad> {
    let from = to.other();
    let bad = |what: String| Bad { place, from, is_other: to.reader()(bytes).is_ok(), what };
    let (_, rest) = from.reader()(bytes).map_err(|unreadable| bad(further(unreadable, at).to_string()))?;
    let record = &bytes[..bytes.len() - rest.len()];
    to.convert(record).map_err(|refusal| bad(format!("byte {at}: {refusal}")))
}

impl Display for Bad {
    fn fmt(&self, f: &mut Formatter<'_>) -> fmt::Result {
        let (from, to) = (self.from.name(), self.from.other().name());
        write!(f, "record {} can't be read as {from}: {}", self.place, self.what)?;
        if self.is_other { write!(f, "; as {to} it can be read: it may be converted already") } else { Ok(()) }
    }
}
