//! Mistakes put into the plain book's rule for marks: the feeds for certificates have to notice each.

use std::time::Instant;

use book::spread::Mistake;
use book::{Book, Marks};
use feeds::{Ordered, OrderedStep};

/// Counts the feeds that notice each mistake; fails where none does, or where the rule itself gives other marks or answers
/// than the source.
pub fn run(seed: u64, count: u64) -> Result<(), String> {
    let start = Instant::now();
    let (mut noticed, mut offers) = (vec![0_u64; Mistake::ALL.len()], 0);
    for place in 0..count {
        let (feed, steps) =
            feed_notices(Ordered::new(seed, place)).map_err(|fault| format!("seed {seed} feed {place}: {fault}"))?;
        noticed.iter_mut().zip(feed).for_each(|(all, feed)| *all += u64::from(feed));
        offers += steps;
    }
    let seconds = start.elapsed().as_secs_f64();
    for (mistake, noticed) in Mistake::ALL.iter().zip(&noticed) {
        println!("{noticed:7} {}", mistake.text());
    }
    let (sharp, all) = (noticed.iter().filter(|noticed| **noticed > 0).count(), noticed.len());
    println!("seed {seed}: {count} feeds, {offers} offers in {seconds:.1} s: marks and answers are the source's");
    println!("seed {seed}: {sharp} of {all} mistakes in the rule for marks noticed");
    if sharp == all { Ok(()) } else { Err(format!("{} mistakes in the rule for marks went unnoticed", all - sharp)) }
}

/// Which mistakes a feed notices, by an answer or a mark that is not the source's, and how many offers it has.
fn feed_notices(mut feed: Ordered) -> Result<(Vec<bool>, usize), String> {
    let mistaken = |mistake: &Mistake| Some(feed.book().clone().marking(Marks::Spread(Some(*mistake))));
    let mut mistaken: Vec<Option<Book>> = Mistake::ALL.iter().map(mistaken).collect();
    let mut steps = 0;
    while let Some(OrderedStep { offer, offered, by_source }) = feed.next() {
        steps += 1;
        let answer = by_source.unwrap_or_else(|| offered.answer.clone());
        if offered.answer != answer {
            return Err(format!("offer {steps}: the plain book gives {}, the source {answer}", offered.answer));
        }
        if let Some(place) = feed.difference(feed.book()) {
            return Err(format!("offer {steps}: the mark of entry {place} is not the source's"));
        }
        for other in &mut mistaken {
            let Some(book) = other else { continue };
            if book.offer(&offer).answer != answer || feed.difference(book).is_some() {
                *other = None;
            }
        }
    }
    Ok((mistaken.iter().map(Option::is_none).collect(), steps))
}
