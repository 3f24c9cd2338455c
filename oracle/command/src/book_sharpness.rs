//! Mistakes put into the plain book: the feeds have to notice each.

use std::time::Instant;

use book::{Book, Mistake, Offer};
use cases::random::Random;
use feeds::{Feed, Step, damaged};
use oracle::Answer;

/// Counts the feeds that notice each mistake; fails where none does.
pub fn run(seed: u64, count: u64) -> Result<(), String> {
    let start = Instant::now();
    let mut noticed = vec![0_u64; Mistake::ALL.len()];
    for place in 0..count {
        let feed = feed_notices(Feed::new(seed, place), &mut Random::new(seed.rotate_left(32), place));
        noticed.iter_mut().zip(feed).for_each(|(all, feed)| *all += u64::from(feed));
    }
    let seconds = start.elapsed().as_secs_f64();
    for (mistake, noticed) in Mistake::ALL.iter().zip(&noticed) {
        println!("{noticed:7} {}", mistake.text());
    }
    let (sharp, all) = (noticed.iter().filter(|noticed| **noticed > 0).count(), noticed.len());
    println!("seed {seed}: {count} feeds in {seconds:.1} s: {sharp} of {all} mistakes of the book noticed");
    if sharp == all { Ok(()) } else { Err(format!("{} mistakes of the book went unnoticed", all - sharp)) }
}

/// Which mistakes a feed notices, by an answer or an entry, or by what a damaged book reads as.
fn feed_notices(mut feed: Feed, random: &mut Random) -> Vec<bool> {
    let mut mistaken: Vec<Option<Book>> =
        Mistake::ALL.iter().map(|mistake| Some(feed.book().mistaken(*mistake))).collect();
    loop {
        let slice = damaged(random, feed.book());
        let reads = Book::read(&slice).is_some();
        let Some(Step { offer, offered }) = feed.next() else { break };
        for (mistake, other) in Mistake::ALL.iter().zip(&mut mistaken) {
            let Some(book) = other else { continue };
            let notices = if mistake.is_in_reading() {
                Book::read_mistaken(&slice, Some(*mistake)).is_some() != reads
            } else {
                differs(book, &offer, &offered.answer, feed.book())
            };
            if notices {
                *other = None;
            }
        }
    }
    mistaken.iter().map(Option::is_none).collect()
}

fn differs(book: &mut Book, offer: &Offer, answer: &Answer, right: &Book) -> bool {
    book.offer(offer).answer != *answer || book.entries() != right.entries()
}
