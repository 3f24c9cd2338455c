//! The book that a feed is offered to, and its room.

use std::mem;
use std::ops::RangeInclusive;

use wutherdish::{Book, Refusal, SETTINGS, Status, Verdict};

use crate::feed::{Feed, Offer};

/// The size of `tally`'s book. Where no size is named, a book begins with it.
pub const TALLY: usize = 65_536;
/// The sizes that a book may have.
pub const SIZES: RangeInclusive<usize> = SETTINGS..=16_777_216;
/// How many points a book keeps at most.
const MOST_POINTS: usize = 4_096;

/// A book that counts what it keeps, and grows if it may. Its bytes are then those of a book that had its last size
/// from the beginning: a refused offer changes nothing, and zeros stand after the entries.
pub struct Room {
    book: Book<Vec<u8>>,
    grows: bool,
    kept: usize,
    refused: usize,
}

impl Room {
    /// A book of this size, or one that grows.
    pub fn open(settings: &[u8], size: Option<usize>) -> Result<Self, Refusal> {
        let book = Book::open(vec![0; size.unwrap_or(TALLY)], settings)?;
        Ok(Self { book, grows: size.is_none(), kept: 0, refused: 0 })
    }

    /// Offers a point of a feed.
    pub fn offer(&mut self, feed: &Feed<'_>, offer: &Offer<'_>) -> Result<Verdict, Refusal> {
        let mut answer = self.book.offer(feed.schedule, offer.leader, offer.record);
        while answer == Err(Refusal::Full) && self.grow() {
            answer = self.book.offer(feed.schedule, offer.leader, offer.record);
        }
        self.refused += usize::from(answer == Err(Refusal::Full));
        self.kept += usize::from(answer.as_ref().is_ok_and(|verdict| Status::of(verdict).is_some()));
        answer
    }

    /// Whether there is more room now.
    fn grow(&mut self) -> bool {
        let (size, most) = (self.book.bytes().len(), *SIZES.end());
        if !self.grows || size == most || self.kept == MOST_POINTS {
            return false;
        }
        let mut bytes = mem::replace(&mut self.book, Book::found(Vec::new())).into_bytes();
        bytes.resize(most.min(2 * size), 0);
        self.book = Book::found(bytes);
        true
    }

    /// The book.
    pub fn book(&self) -> &Book<Vec<u8>> {
        &self.book
    }

    /// The book, handed back.
    pub fn into_book(self) -> Book<Vec<u8>> {
        self.book
    }

    /// How many points it keeps.
    pub fn kept(&self) -> usize {
        self.kept
    }

    /// How many points were refused with 12.
    pub fn refused(&self) -> usize {
        self.refused
    }

    /// What a reader should know of its room.
    pub fn note(&self) -> Option<String> {
        let (size, most) = (self.book.bytes().len(), SIZES.end());
        let points = if self.refused == 1 { "1 point was".into() } else { format!("{} points were", self.refused) };
        match self.refused {
            0 if size == TALLY || !self.grows => None,
            0 => {
                Some(format!("the book grew to {size} bytes; tally's, of {TALLY}, refuses points of this feed with 12"))
            }
            _ if self.kept == MOST_POINTS => Some(format!("{points} refused: a book keeps {MOST_POINTS} at most")),
            _ if size == *most => Some(format!("{points} refused: a book has {most} bytes at most")),
            _ => Some(format!(
                "{points} refused for lack of room: --room takes up to {most}, and without it the book grows"
            )),
        }
    }
}

#[cfg(test)]
mod tests {
    use super::*;

    #[test]
    fn a_book_with_as_many_points_as_it_keeps_does_not_grow() {
        let room = |kept| Room { book: Book::found(vec![0; TALLY]), grows: true, kept, refused: 2 };
        let (mut full, mut other) = (room(MOST_POINTS), room(MOST_POINTS - 1));
        assert!(!full.grow() && other.grow());
        assert_eq!((full.book().bytes().len(), other.book().bytes().len()), (TALLY, 2 * TALLY));
        assert_eq!(full.note().as_deref(), Some("2 points were refused: a book keeps 4096 at most"));
        while other.grow() {}
        assert_eq!(other.book().bytes().len(), 16_777_216);
        assert_eq!(other.note().as_deref(), Some("2 points were refused: a book has 16777216 bytes at most"));
    }
}
