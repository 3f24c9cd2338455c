//! Feeds by seed: points offered to a book one after another, most of them well made over what the book keeps by then.

mod anchor;
mod damage;
mod fault;
mod feature;
mod feeder;
mod histogram;
mod maker;
mod offer_fault;
mod ordered;
mod start;
mod world;

pub use anchor::{link_through, top};
pub use damage::damaged;
pub use histogram::Histogram;
pub use ordered::{Ordered, OrderedStep};
pub use start::opening;

use book::{Book, Offer, Offered};
use cases::random::Random;
use feeder::Feeder;

/// Offers of one feed.
pub const OFFERS: usize = 200;

/// Of a feed's offers n go to damaged books.
const DAMAGED: usize = 60;

/// A feed, which the plain book answers as it goes.
pub struct Feed {
    book: Book,
    opened: bool,
    feeder: Feeder,
    left: usize,
}

/// An offer, and what came of it.
pub struct Step {
    pub offer: Offer,
    pub offered: Offered,
}

impl Feed {
    /// The feed of this seed at this place. Feeds don't depend on one another.
    pub fn new(seed: u64, place: u64) -> Self {
        start::feed(seed, place)
    }

    /// The book as it stands.
    pub fn book(&self) -> &Book {
        &self.book
    }

    /// Whether the book was opened for this feed, or else given with entries in it.
    pub fn opened(&self) -> bool {
        self.opened
    }
}

impl Iterator for Feed {
    type Item = Step;

    fn next(&mut self) -> Option<Step> {
        self.left = self.left.checked_sub(1)?;
        let offer = self.feeder.next(&self.book);
        let offered = self.book.offer(&offer);
        Some(Step { offer, offered })
    }
}

/// The first offers of a feed, each with a damaged copy of the book that it goes to in the feed.
pub fn damaged_books(seed: u64, place: u64) -> impl Iterator<Item = (Vec<u8>, Step)> {
    let mut random = Random::new(seed.rotate_left(32), place);
    let mut feed = Feed::new(seed, place);
    (0..DAMAGED).map_while(move |_| {
        let slice = damaged(&mut random, feed.book());
        Some((slice, feed.next()?))
    })
}
