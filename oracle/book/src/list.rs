//! The list of a point's dependencies, as the book builds it of its entries.

use std::cmp::Reverse;

use oracle::numbers::is_version;
use oracle::value::{AnchorStageRole, Id, Point, Through};
use oracle::write;

use crate::{Book, Entry, Mistake, State};

/// The state of an id that isn't kept.
const NOT_FOUND: u8 = 4;

/// The author's point that the includes name.
pub fn prev(point: &Point) -> Option<Id> {
    let digest = *point.prev_digest()?;
    Some(Id { round: point.id.round - 1, digest, author: point.id.author })
}

/// Whether two ids are of one author and round.
pub fn is_version_of(id: &Id, other: &Id) -> bool {
    id.round == other.round && id.author == other.author
}

impl Book {
    /// Witness rising, includes rising, with no previous digest kept versions of the author at r-1 in book order; then
    /// indirect targets, the higher round first, proof first on a tie.
    pub(crate) fn list(&self, point: &Point) -> Vec<u8> {
        let prev = prev(point);
        let mut list = Vec::new();
        for id in self.direct(point) {
            self.add(&mut list, &id, prev == Some(id));
        }
        for (role, id) in self.indirect(point) {
            write::field(&mut list, 19, &[u8::from(role == AnchorStageRole::Trigger)]);
            self.add(&mut list, &id, prev == Some(id));
        }
        list
    }

    fn direct(&self, point: &Point) -> Vec<Id> {
        let mut maps = [Through::Witness, Through::Includes];
        if self.made(Mistake::IncludesFirst) {
            maps.reverse();
        }
        let mut direct: Vec<Id> = maps.into_iter().flat_map(|map| point.dependencies(map)).collect();
        let mut versions: Vec<Id> =
            self.entries.iter().map(|entry| entry.id).filter(|id| is_version(point, id)).collect();
        if self.made(Mistake::VersionsReversed) {
            versions.reverse();
        }
        if self.made(Mistake::NoVersions) {
            versions.clear();
        }
        if self.made(Mistake::VersionsFirst) {
            std::mem::swap(&mut direct, &mut versions);
        }
        direct.extend(versions);
        direct
    }

    fn indirect(&self, point: &Point) -> Vec<(AnchorStageRole, Id)> {
        let mut roles = AnchorStageRole::ALL;
        if self.made(Mistake::TriggerOnTie) {
            roles.reverse();
        }
        let targets = roles.into_iter().filter_map(|role| Some((role, point.link(role).to?)));
        let mut targets: Vec<_> = targets.filter(|_| !self.made(Mistake::NoTargets)).collect();
        // stable: on a tie the proof stays first
        targets.sort_by_key(|(_, id)| Reverse(id.round));
        if self.made(Mistake::LowerTargetFirst) {
            targets.sort_by_key(|(_, id)| id.round);
        }
        targets
    }

    /// The place of a dependency's entry.
    fn looked_up(&self, id: &Id) -> Option<usize> {
        let any = |entry: &Entry| is_version_of(&entry.id, id);
        let place = self.place(id);
        if self.made(Mistake::AnyDigest) { place.or_else(|| self.entries.iter().position(any)) } else { place }
    }

    /// The previous point counts as certified even if it isn't kept.
    fn add(&self, list: &mut Vec<u8>, id: &Id, is_prev: bool) {
        let Some(place) = self.looked_up(id) else {
            let certified = is_prev && !self.made(Mistake::PrevUncertified);
            write::field(list, 16, &[NOT_FOUND, u8::from(certified), 0, 0]);
            write::field(list, 17, &write::id(id));
            return;
        };
        let entry = &self.entries[place];
        let (state, reason) = entry.state.numbers();
        let first_valid = self.first_valid(id) == Some(place) || self.made(Mistake::EachValid);
        write::field(list, 16, &[state, u8::from(entry.certified || is_prev), u8::from(first_valid), reason]);
        match &entry.state {
            State::IllFormed(_) => write::field(list, 17, &write::id(id)),
            State::TransInvalid(root) => {
                write::field(list, 18, &[&write::id(&root.id)[..], &[root.reason]].concat());
                list.extend_from_slice(&entry.record);
            }
            State::Valid | State::Invalid(_) => list.extend_from_slice(&entry.record),
        }
    }

    /// The place of the earliest valid entry of that author and round.
    fn first_valid(&self, id: &Id) -> Option<usize> {
        let first = |entry: &Entry| {
            is_version_of(&entry.id, id) && (entry.state == State::Valid || self.made(Mistake::FirstOfAll))
        };
        if self.made(Mistake::LatestValid) {
            return self.entries.iter().rposition(first);
        }
        self.entries.iter().position(first)
    }
}
