//! Document 01's program `tally`, by the same proved calls: its output is the same byte for byte.

use std::io::{self, Write};

use wutherdish::{Book, Refusal, SETTINGS, Verdict};

use crate::feed::Feed;
use crate::progress::Progress;
use crate::room::TALLY;

/// Prints a line for each point of a feed, and how many are kept.
pub fn print_lines(bytes: &[u8], progress: &mut Progress, out: &mut impl Write) -> io::Result<()> {
    let settings = &bytes[..bytes.len().min(SETTINGS)];
    let mut book = match Book::open(vec![0; TALLY], settings) {
        Ok(book) => book,
        Err(refusal) => return refused_front(refusal, out),
    };
    let Ok(feed) = Feed::read(bytes) else { return refused_front(Refusal::Schedule, out) };
    let mut place = 0;
    for offer in feed.offers() {
        place += 1;
        match offer {
            Ok(offer) => {
                let answer = book.offer(feed.schedule, offer.leader, offer.record);
                write_line(place, offer.point.id.round, &answer, out)?;
                progress.show(place, offer.end);
            }
            Err(_) => write_line(place, 0, &Err(Refusal::Record), out)?,
        }
    }
    writeln!(out, "end {}", book.kept().map_or(0, |kept| kept.len()))
}

fn refused_front(refusal: Refusal, out: &mut impl Write) -> io::Result<()> {
    write_line(0, 0, &Err(refusal), out)?;
    writeln!(out, "end 0")
}

fn write_line(place: usize, round: u32, answer: &Result<Verdict, Refusal>, out: &mut impl Write) -> io::Result<()> {
    let (letter, reason, number) = match answer {
        Ok(verdict) => (verdict.letter(), verdict.reason_number(), 0),
        Err(refusal) => ('-', 0, refusal.number()),
    };
    writeln!(out, "{place} {round} {letter} {reason} {number}")
}
