//! Numbers 8 and 9.

use std::collections::HashSet;

use oracle::numbers::{MISMATCH, UNCOVERED, is_version};
use oracle::value::{Entry, Id, State, Through};

use crate::{Mistake, Rules};

impl Rules<'_> {
    pub fn check_list(&self, presence: u8, entries: &[Entry]) -> Result<(), u8> {
        if self.made(Mistake::UncoveredFirst) && self.uncovered(entries) {
            return Err(UNCOVERED);
        }
        if self.mismatch(presence, entries) {
            return Err(MISMATCH);
        }
        if self.uncovered(entries) { Err(UNCOVERED) } else { Ok(()) }
    }

    fn mismatch(&self, presence: u8, entries: &[Entry]) -> bool {
        let point = &self.read.point;
        let mut lacking: HashSet<Id> = point.dependencies(Through::Includes).collect();
        if presence == 3 {
            lacking.extend(point.dependencies(Through::Witness));
        }
        let mut seen: HashSet<Id> = HashSet::new();
        let (mut dropped, mut roles) = (0, Vec::new());
        for entry in entries {
            if let Some(role) = entry.indirect {
                let Some(to) = point.link(role).to else { return true };
                if presence == 2 || roles.contains(&role) || entry.state.id().is_some_and(|id| *id != to) {
                    return true;
                }
                roles.push(role);
                dropped += usize::from(self.made(Mistake::IndirectDropMakesUp) && entry.state == State::Dropped);
                continue;
            }
            if dropped > 0 && self.made(Mistake::MismatchToDrop) {
                continue;
            }
            match entry.state.id() {
                None => dropped += 1,
                Some(id) => {
                    let fits = lacking.remove(id) || is_version(point, id);
                    if !fits || !seen.insert(*id) {
                        return true;
                    }
                }
            }
        }
        let spare = self.made(Mistake::SpareDrop) && dropped > lacking.len();
        (lacking.len() > dropped && !(dropped > 0 && self.made(Mistake::MismatchToDrop))) || spare
    }

    fn uncovered(&self, entries: &[Entry]) -> bool {
        let point = &self.read.point;
        let Some(digest) = point.prev_digest() else { return false };
        let prev = Id { round: point.id.round - 1, digest: *digest, author: point.id.author };
        let end = entries.iter().position(|entry| entry.state == State::Dropped);
        let end = end.filter(|_| self.made(Mistake::UncoveredToDrop)).unwrap_or(entries.len());
        entries[..end].iter().any(|entry| !entry.certified && entry.state.id() == Some(&prev))
    }
}
