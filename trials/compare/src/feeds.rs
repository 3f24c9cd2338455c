//! Feeds of offers, through the plain book and the library.

use std::time::Instant;

use book::{Offer, offer};
use compare::run::{Counts, Range, run};
use feeds::{Feed, Histogram, Step, damaged_books, opening};
use oracle::Answer;
use wutherdish::lent::open;

use crate::lent::{Expected, FILL, Lent};
use crate::report::{book_difference, offer_report};

/// Feeds that a thread takes at a time.
const BLOCK: u64 = 4;

#[derive(Default)]
struct Compared {
    histogram: Histogram,
    lent: Lent,
}

impl Counts for Compared {
    fn merge(&mut self, other: Self) {
        self.histogram.merge(other.histogram);
    }
}

/// Every offer: number, answer, peer buffer and book, byte for byte.
pub fn feeds(range: &Range) -> Result<(), String> {
    compare_feeds("offers", range, |compared, place| compared.feed(range.seed, place))
}

/// Every offer goes to a damaged copy of its book.
pub fn books_damaged(range: &Range) -> Result<(), String> {
    compare_feeds("offers to damaged books", range, |compared, place| compared.damaged(range.seed, place))
}

fn compare_feeds(
    name: &str,
    range: &Range,
    compare: impl Fn(&mut Compared, u64) -> Result<(), String> + Sync,
) -> Result<(), String> {
    let start = Instant::now();
    let Compared { histogram, .. } = run(range, BLOCK, compare)?;
    histogram.print();
    let seconds = start.elapsed().as_secs_f64();
    let Range { seed, count, threads } = range;
    let offers = histogram.offers();
    println!("seed {seed}, {count} feeds: {offers} {name} in {seconds:.1} s, threads {threads}: no difference");
    Ok(())
}

impl Compared {
    fn feed(&mut self, seed: u64, place: u64) -> Result<(), String> {
        let (settings, length) = opening(seed, place);
        compare_opening(&settings, length)?;
        let mut feed = Feed::new(seed, place);
        let mut slice = if feed.opened() {
            compare_opening(feed.book().settings(), feed.book().length())?
        } else {
            feed.book().bytes()
        };
        let mut count = 0;
        while let Some(step) = feed.next() {
            count += 1;
            self.lent.offer(&mut slice, &step.offer);
            self.agree(&step.offer, &step.offered.answer, &feed.book().bytes(), &slice)
                .map_err(|report| format!("offer {count} of the feed differs\n{report}"))?;
            self.histogram.add(feed.book(), &step);
        }
        Ok(())
    }

    fn damaged(&mut self, seed: u64, place: u64) -> Result<(), String> {
        for (place, (mut slice, Step { offer: given, .. })) in damaged_books(seed, place).enumerate() {
            let mut plain = slice.clone();
            let mut peers = vec![FILL; given.peer_buffer as usize];
            let answer = offer(&mut plain, &given.schedule, given.leader, &given.record, &mut peers);
            self.lent.offer(&mut slice, &given);
            self.agree(&given, &answer, &plain, &slice)
                .map_err(|report| format!("offer {} of the feed, to a damaged book, differs\n{report}", place + 1))?;
            self.histogram.add_answer(&answer);
        }
        Ok(())
    }

    fn agree(&self, offer: &Offer, answer: &Answer, book: &[u8], slice: &[u8]) -> Result<(), String> {
        let same = Expected::new(answer).is_some_and(|expected| self.lent.is(&expected)) && book == slice;
        if same { Ok(()) } else { Err(offer_report(offer, answer, &self.lent, book, slice)) }
    }
}

/// Opens a book in a filled slice through both, and gives the slice.
fn compare_opening(settings: &[u8], length: usize) -> Result<Vec<u8>, String> {
    let mut slice = vec![FILL; length];
    let mut plain = slice.clone();
    let (number, expected) = (open(&mut slice, settings), book::open(&mut plain, settings));
    if number == expected && slice == plain {
        return Ok(slice);
    }
    let difference = book_difference(&plain, &slice);
    Err(format!(
        "opening a slice of {length} bytes gives {number}, not {expected}; {difference}\nsettings {settings:?}"
    ))
}
