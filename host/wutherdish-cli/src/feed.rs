//! A feed as document 01's program `tally` reads it: settings, a schedule, then leader byte and record of each point.

use wutherdish::{Point, SETTINGS, Schedule, Settings, Unreadable};

/// A feed whose front can be read.
pub struct Feed<'a> {
    /// Its settings and its schedule.
    pub front: (Settings, Schedule),
    /// The bytes of its settings.
    pub settings: &'a [u8],
    /// The bytes of its schedule.
    pub schedule: &'a [u8],
    /// All its bytes.
    pub bytes: &'a [u8],
}

/// A point of a feed.
pub struct Offer<'a> {
    /// Its place among the points, counted from 1.
    pub place: usize,
    /// Its leader byte.
    pub leader: u8,
    /// Its record.
    pub record: &'a [u8],
    /// What the record says.
    pub point: Point,
    /// Where the next one begins.
    pub end: usize,
}

/// The points of a feed, one after another. One that can't be read is the last.
pub struct Offers<'a> {
    bytes: &'a [u8],
    at: usize,
    place: usize,
}

impl<'a> Feed<'a> {
    /// The feed that some bytes are.
    pub fn read(bytes: &'a [u8]) -> Result<Self, Unreadable> {
        let (network, after) = Settings::read(bytes)?;
        let (spans, points) = Schedule::read(after).map_err(|unreadable| further(unreadable, SETTINGS))?;
        let schedule = &after[..after.len() - points.len()];
        Ok(Self { front: (network, spans), settings: &bytes[..SETTINGS], schedule, bytes })
    }

    /// Where its points begin.
    pub fn points_at(&self) -> usize {
        SETTINGS + self.schedule.len()
    }

    /// Its points.
    pub fn offers(&self) -> Offers<'a> {
        Offers { bytes: self.bytes, at: self.points_at(), place: 0 }
    }
}

impl<'a> Iterator for Offers<'a> {
    type Item = Result<Offer<'a>, Unreadable>;

    fn next(&mut self) -> Option<Self::Item> {
        let (&leader, after) = self.bytes.get(self.at..)?.split_first()?;
        let start = self.at + 1;
        self.place += 1;
        match Point::read(after) {
            Ok((point, rest)) => {
                let record = &after[..after.len() - rest.len()];
                self.at = start + record.len();
                Some(Ok(Offer { place: self.place, leader, record, point, end: self.at }))
            }
            Err(unreadable) => {
                self.at = self.bytes.len();
                Some(Err(further(unreadable, start)))
            }
        }
    }
}

/// The same, counted from the front of bytes that have n more before it.
pub fn further(unreadable: Unreadable, before: usize) -> Unreadable {
    Unreadable { at: unreadable.at + before, ..unreadable }
}
