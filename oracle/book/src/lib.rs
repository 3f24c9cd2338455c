//! Document 01's plain book: a list of entries, empty at opening, laid out after its settings in as long a slice.
//!
//! It builds the lists of dependencies itself and judges them by the oracle, so by the unchanged source. `open` and
//! `offer` work on the book's bytes; `Book` is what these bytes mean. One mistake can be put into a book: the feeds have
//! to notice each.

mod entry;
pub mod file;
mod judge;
mod layout;
mod list;
mod mistake;
mod offer;
pub mod replay;
pub mod spread;
mod tally;

pub use entry::{BESIDE_RECORD, Entry, Root, State};
pub use mistake::Mistake;
pub use offer::{Offer, Offered};
pub use spread::{MARKS, Marks, Spread};
pub use tally::{tally, tally_by};

use oracle::Answer;
use oracle::numbers::BOOK;
use oracle::value::Id;

/// The longest slice that holds a book.
pub const LONGEST: usize = 16_777_216;
/// Settings with their tag and length: the shortest slice that holds a book.
pub const SETTINGS: usize = 47;
/// A book holds no more entries.
pub const MOST: usize = 4_096;

/// What a book's bytes mean.
#[derive(Clone, Debug)]
pub struct Book {
    settings: Vec<u8>,
    entries: Vec<Entry>,
    length: usize,
    mistake: Option<Mistake>,
    marks: Marks,
    graph: spread::Graph,
}

impl Book {
    /// As they stand at the book's front.
    pub fn settings(&self) -> &[u8] {
        &self.settings
    }

    pub fn entries(&self) -> &[Entry] {
        &self.entries
    }

    /// The length of its slice.
    pub fn length(&self) -> usize {
        self.length
    }

    /// The place of an id among the entries.
    pub fn place(&self, id: &Id) -> Option<usize> {
        self.entries.iter().position(|entry| entry.id == *id)
    }

    /// The same book, whose marks go this far from now on.
    pub fn marking(self, marks: Marks) -> Self {
        Self { marks, ..self }
    }

    /// The same book, in which this mistake is made from now on.
    pub fn mistaken(&self, mistake: Mistake) -> Self {
        Self { mistake: Some(mistake), ..self.clone() }
    }

    fn made(&self, mistake: Mistake) -> bool {
        self.mistake == Some(mistake)
    }
}

/// Opens a book in a lent slice: document 01's number, or 0.
pub fn open(slice: &mut [u8], settings: &[u8]) -> u8 {
    match Book::open(settings, slice.len()) {
        Err(number) => number,
        Ok(book) => {
            slice.copy_from_slice(&book.bytes());
            0
        }
    }
}

/// Offers a point to the book in a lent slice. The unknown peers of a verdict go to the peer buffer's front.
pub fn offer(slice: &mut [u8], schedule: &[u8], leader: u8, record: &[u8], peers: &mut [u8]) -> Answer {
    let peer_buffer = u32::try_from(peers.len()).unwrap_or(u32::MAX);
    let offer = Offer { schedule: schedule.to_vec(), leader, record: record.to_vec(), peer_buffer };
    offer_by(MARKS, slice, &offer, peers)
}

/// The same where marks go this far.
pub fn offer_by(marks: Marks, slice: &mut [u8], offer: &Offer, peers: &mut [u8]) -> Answer {
    let Some(book) = Book::read(slice) else { return Answer::Number(BOOK) };
    let mut book = book.marking(marks);
    let answer = book.offer(offer).answer;
    if let Answer::Verdict(verdict) = &answer {
        slice.copy_from_slice(&book.bytes());
        let unknown = verdict.unknown.as_flattened();
        peers[..unknown.len()].copy_from_slice(unknown);
    }
    answer
}
