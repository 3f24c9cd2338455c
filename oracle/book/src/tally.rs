//! What the program `tally` prints.

use std::fmt::Write;

use oracle::answer::{FAIL, ILL_FORMED, INVALID, TRANS_INVALID};
use oracle::numbers::{RECORD, SCHEDULE, SETTINGS as NUMBER_SETTINGS};
use oracle::value::Point;
use oracle::{Answer, PEER_BUFFER, read};

use crate::{Book, MARKS, Marks, Offer, SETTINGS};

/// The length of its book's slice.
const LENGTH: usize = 65_536;

/// One line for each point of the feed, then `end` and the kept count.
pub fn tally(input: &[u8]) -> String {
    tally_by(MARKS, input)
}

/// The same where the book's marks go this far.
pub fn tally_by(marks: Marks, input: &[u8]) -> String {
    let Some((book, rest)) = open(input) else { return refused(NUMBER_SETTINGS) };
    let mut book = book.marking(marks);
    let Some((_, mut points)) = read::schedule_front(rest) else { return refused(SCHEDULE) };
    let schedule = &rest[..rest.len() - points.len()];
    let mut out = String::new();
    let mut place = 0;
    while let Some((leader, rest)) = points.split_first() {
        place += 1;
        let Some((point, after)) = read::record_front(rest) else {
            let _ = writeln!(out, "{place} 0 - 0 {RECORD}");
            break;
        };
        let record = rest[..rest.len() - after.len()].to_vec();
        let offer = Offer { schedule: schedule.to_vec(), leader: *leader, record, peer_buffer: PEER_BUFFER };
        let answer = book.offer(&offer).answer;
        let _ = writeln!(out, "{place} {}", line(&point, &answer));
        points = after;
    }
    let _ = writeln!(out, "end {}", book.entries().len());
    out
}

fn open(input: &[u8]) -> Option<(Book, &[u8])> {
    let (settings, rest) = input.split_at_checked(SETTINGS)?;
    Some((Book::open(settings, LENGTH).ok()?, rest))
}

fn refused(number: u8) -> String {
    format!("0 0 - 0 {number}\nend 0\n")
}

/// Round, verdict letter, reason number, refusal number.
fn line(point: &Point, answer: &Answer) -> String {
    let (letter, reason, number) = match answer {
        Answer::Number(number) => ('-', 0, *number),
        Answer::Verdict(verdict) => (letter(verdict.kind), verdict.reason, 0),
        Answer::Panic(message) => return format!("panic {message}"),
    };
    format!("{} {letter} {reason} {number}", point.id.round)
}

fn letter(kind: u8) -> char {
    match kind {
        FAIL => 'F',
        ILL_FORMED => 'L',
        INVALID => 'I',
        TRANS_INVALID => 'T',
        _ => 'V',
    }
}
