//! Feeds through the plain book.

use std::time::Instant;

use book::{Book, offer};
use feeds::{Feed, Histogram, Step, damaged_books};
use oracle::Answer;
use oracle::answer::FAIL;
use oracle::numbers::BOOK;

/// One feed in n is run on the book's bytes too.
const ON_BYTES: u64 = 7;

/// Prints how often each answer and each feature came.
pub fn feeds(seed: u64, count: u64) -> Result<(), String> {
    let start = Instant::now();
    let mut histogram = Histogram::default();
    for place in 0..count {
        let mut feed = Feed::new(seed, place);
        let on_bytes = place % ON_BYTES == 0;
        loop {
            let before = on_bytes.then(|| feed.book().bytes());
            let Some(step) = feed.next() else { break };
            check(&before, feed.book(), &step).map_err(|fault| format!("seed {seed} feed {place}: {fault}"))?;
            histogram.add(feed.book(), &step);
        }
    }
    let seconds = start.elapsed().as_secs_f64();
    histogram.print();
    println!("seed {seed}: {count} feeds, {} offers in {seconds:.1} s", histogram.offers());
    Ok(())
}

/// No panic but the known one; and the call on the book's bytes leaves what the plain book is laid out as.
fn check(before: &Option<Vec<u8>>, book: &Book, step: &Step) -> Result<(), String> {
    let answer = &step.offered.answer;
    if let Answer::Panic(message) = answer {
        return Err(format!("a panic that is not listed: {message}"));
    }
    let Some(before) = before else { return Ok(()) };
    let mut slice = before.clone();
    let again = offer_to(&mut slice, step);
    if again != *answer || slice != book.bytes() {
        return Err(format!("{answer} becomes {again} on the book's bytes, or leaves other bytes"));
    }
    if keeps_nothing(answer) && slice != *before {
        return Err(format!("{answer} changes the book"));
    }
    Ok(())
}

fn offer_to(slice: &mut [u8], step: &Step) -> Answer {
    let mut peers = vec![0; step.offer.peer_buffer as usize];
    offer(slice, &step.offer.schedule, step.offer.leader, &step.offer.record, &mut peers)
}

fn keeps_nothing(answer: &Answer) -> bool {
    match answer {
        Answer::Verdict(verdict) => verdict.kind == FAIL,
        _ => true,
    }
}

/// Each offer goes to a damaged copy of its book too.
pub fn damaged(seed: u64, count: u64) -> Result<(), String> {
    let start = Instant::now();
    let mut histogram = Histogram::default();
    let mut other = 0;
    for place in 0..count {
        for (mut slice, step) in damaged_books(seed, place) {
            let before = slice.clone();
            let answer = offer_to(&mut slice, &step);
            if matches!(answer, Answer::Panic(_)) || (answer == Answer::Number(BOOK) && slice != before) {
                return Err(format!("seed {seed} feed {place}: {answer}"));
            }
            other += u64::from(answer != step.offered.answer && answer != Answer::Number(BOOK));
            histogram.add_answer(&answer);
        }
    }
    let seconds = start.elapsed().as_secs_f64();
    histogram.print();
    println!(
        "seed {seed}: {} offers to damaged books in {seconds:.1} s; {other} answers other than 10 and than without damage",
        histogram.offers()
    );
    Ok(())
}
