//! How a difference is printed: the case, and both answers.

use std::fmt::Write;

use book::Offer;
use oracle::Answer;
use oracle::file::Case;
use oracle::question::Question;

use crate::lent::{Expected, FILL, Lent};

/// The case in hex, what was expected and what the library left.
pub fn report(case: &Case, heading: &str, expected: Option<&Expected>, lent: &Lent) -> String {
    let mut lines = inputs(case);
    lines.extend(answers(heading, expected, lent));
    lines.join("\n")
}

/// The offer in hex, both answers, and the first place where the book's bytes part. Seed and place give the book.
pub fn offer_report(offer: &Offer, answer: &Answer, lent: &Lent, book: &[u8], slice: &[u8]) -> String {
    let mut lines = vec![
        format!("schedule {}", hex(&offer.schedule)),
        format!("leader {}", offer.leader),
        format!("record {}", hex(&offer.record)),
        format!("peer buffer of {} bytes", offer.peer_buffer),
    ];
    lines.extend(answers(&format!("the plain book: {answer}"), Expected::new(answer).as_ref(), lent));
    lines.push(book_difference(book, slice));
    lines.join("\n")
}

/// Where the book's bytes part from what they have to be.
pub fn book_difference(book: &[u8], slice: &[u8]) -> String {
    let place = book.iter().zip(slice).position(|(expected, found)| expected != found);
    let Some(place) = place else { return format!("no byte of the book's {} differs", book.len()) };
    let part = |bytes: &[u8]| hex(&bytes[place..bytes.len().min(place + 64)]);
    format!("the book of {} bytes from byte {place} on\n  {}\n  {} by the library", book.len(), part(book), part(slice))
}

fn answers(heading: &str, expected: Option<&Expected>, lent: &Lent) -> Vec<String> {
    let mut lines = vec![heading.to_string()];
    if let Some(expected) = expected {
        lines.push(format!("  number {}, answer {}", expected.number, hex(&expected.answer)));
        lines.push(format!("  peer buffer's front {}", hex(expected.unknown.as_flattened())));
    }
    lines.push("the library:".to_string());
    lines.push(format!("  number {}, answer {}", lent.number, hex(&lent.answer)));
    lines.push(format!("  peer buffer's front {}", hex(touched(&lent.peers))));
    lines
}

/// The case in hex.
pub fn hex_inputs(case: &Case) -> String {
    inputs(case).join("\n")
}

/// What a question hands over, in hex.
pub fn question(question: &Question) -> String {
    hex_inputs(&question.judging(question.list.clone()))
}

fn inputs(case: &Case) -> Vec<String> {
    let (Case::Verify { settings, schedule, record, peer_buffer }
    | Case::Judge { settings, schedule, record, peer_buffer, .. }) = case;
    let mut lines = vec![
        format!("settings {}", hex(settings)),
        format!("schedule {}", hex(schedule)),
        format!("record {}", hex(record)),
        format!("peer buffer of {peer_buffer} bytes"),
    ];
    if let Case::Judge { leader, presence, list, .. } = case {
        lines.push(format!("leader {leader}, presence {presence}"));
        lines.push(format!("list {}", hex(list)));
    }
    lines
}

/// The buffer up to the last byte that isn't what it was filled with.
fn touched(peers: &[u8]) -> &[u8] {
    let end = peers.iter().rposition(|byte| *byte != FILL).map_or(0, |place| place + 1);
    &peers[..end]
}

pub fn hex(bytes: &[u8]) -> String {
    bytes.iter().fold(String::with_capacity(bytes.len() * 2), |mut out, byte| {
        let _ = write!(out, "{byte:02x}");
        out
    })
}
