//! The ids at hand: all that a feed, a book, a point record or a file of cases names.

use std::collections::BTreeSet;

use wutherdish::{AnchorLink, InvalidDependency, Kept, PeerId, Point, PointId, Schedule, Settings, Status};

use crate::cases::Cases;
use crate::entries::fields;
use crate::feed::Feed;

/// A peer's id or a point's digest.
pub type Id = [u8; 32];

/// Ids of both kinds.
#[derive(Default)]
pub struct Ids(pub BTreeSet<Id>);

impl Ids {
    /// Those of a feed, up to what can't be read.
    pub fn of_feed(feed: &Feed<'_>) -> Self {
        let (mut ids, (settings, schedule)) = (Self::default(), &feed.front);
        ids.add_settings(settings);
        ids.add_schedule(schedule);
        feed.offers().flatten().for_each(|offer| ids.add_point(&offer.point));
        ids
    }

    /// Those of a book.
    pub fn of_book(settings: &Settings, kept: &[Kept]) -> Self {
        let mut ids = Self::default();
        ids.add_settings(settings);
        for Kept { point, status, .. } in kept {
            ids.add_point(point);
            if let Status::TransInvalid(InvalidDependency { link, .. }) = status {
                ids.add_id(&link.to);
                ids.add_peer(&link.through.peer());
            }
        }
        ids
    }

    /// Those of a point.
    pub fn of_point(point: &Point) -> Self {
        let mut ids = Self::default();
        ids.add_point(point);
        ids
    }

    /// Those of a file of cases, up to what can't be read. A list is read field by field: tags 1, 17 and 18 begin with a point's id.
    pub fn of_cases(cases: Cases<'_>) -> Self {
        let mut ids = Self::default();
        for case in cases.flatten() {
            case.call.point().iter().for_each(|point| ids.add_point(point));
            for (tag, content) in fields(case.call.list()) {
                if let (1 | 17 | 18, Some(id)) = (tag, content.get(4..68)) {
                    ids.0.extend(id.as_chunks::<32>().0);
                }
            }
        }
        ids
    }

    fn add_settings(&mut self, settings: &Settings) {
        self.0.insert(settings.genesis_digest.0);
    }

    fn add_schedule(&mut self, schedule: &Schedule) {
        schedule.spans.iter().flat_map(|span| &span.peers).for_each(|peer| self.add_peer(peer));
    }

    fn add_peer(&mut self, peer: &PeerId) {
        self.0.insert(peer.0);
    }

    fn add_id(&mut self, id: &PointId) {
        self.0.extend([id.digest.0, id.author.0]);
    }

    fn add_point(&mut self, point: &Point) {
        self.add_id(&point.id);
        let dependencies = point.includes.iter().chain(&point.witness);
        self.0.extend(dependencies.flat_map(|(peer, digest)| [peer.0, digest.0]));
        point.evidence.iter().for_each(|peer| self.add_peer(peer));
        for link in [point.anchor_proof, point.anchor_trigger] {
            self.add_peer(&link.through().peer());
            if let AnchorLink::Indirect(link) = link {
                self.add_id(&link.to);
            }
        }
    }
}
