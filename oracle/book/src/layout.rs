//! A book's bytes: settings, entries one after the other, zeros. Numbers 1, 5 and 10.

use std::collections::HashSet;

use oracle::numbers::{SETTINGS as NUMBER_SETTINGS, SHORT, within_limits};
use oracle::read;

use crate::spread::Graph;
use crate::{Book, Entry, LONGEST, MARKS, MOST, Mistake, SETTINGS};

impl Book {
    /// Opened with settings in a slice of this length: number 1, then 5.
    pub fn open(settings: &[u8], length: usize) -> Result<Self, u8> {
        read::settings(settings).filter(within_limits).ok_or(NUMBER_SETTINGS)?;
        if !(SETTINGS..=LONGEST).contains(&length) {
            return Err(SHORT);
        }
        Ok(Self::empty(settings.to_vec(), length, None))
    }

    fn empty(settings: Vec<u8>, length: usize, mistake: Option<Mistake>) -> Self {
        Self { settings, entries: Vec::new(), length, mistake, marks: MARKS, graph: Graph::default() }
    }

    /// What the bytes of a slice mean; `None` is number 10.
    pub fn read(slice: &[u8]) -> Option<Self> {
        Self::read_mistaken(slice, None)
    }

    /// The same with a mistake made on the way.
    pub fn read_mistaken(slice: &[u8], mistake: Option<Mistake>) -> Option<Self> {
        let (settings, mut rest) = read::settings_front(slice)?;
        let mut book = Self::empty(slice[..SETTINGS].to_vec(), slice.len(), mistake);
        let too_long = slice.len() > LONGEST && !book.made(Mistake::AnyLength);
        if too_long || !(within_limits(&settings) || book.made(Mistake::AnyLimits)) {
            return None;
        }
        let mut ids = HashSet::new();
        while rest.first().is_some_and(|byte| *byte != 0) {
            let (entry, after) = Entry::read(rest, mistake)?;
            let twice = !ids.insert(entry.id) && !book.made(Mistake::IdTwice);
            let too_many = book.entries.len() == MOST && !book.made(Mistake::MoreEntries);
            if too_many || twice {
                return None;
            }
            book.entries.push(entry);
            rest = after;
        }
        let ended = book.made(Mistake::AnythingAfter) || rest.iter().all(|byte| *byte == 0);
        ended.then_some(book)
    }

    pub fn bytes(&self) -> Vec<u8> {
        let mut out = Vec::with_capacity(self.length);
        out.extend_from_slice(&self.settings);
        for entry in &self.entries {
            entry.write(&mut out);
        }
        out.resize(self.length, 0);
        out
    }

    /// How many bytes settings and entries take.
    pub fn used(&self) -> usize {
        SETTINGS + self.entries.iter().map(Entry::length).sum::<usize>()
    }
}
