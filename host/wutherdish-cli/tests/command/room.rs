//! The room of the book that a feed is offered to.

use wutherdish::PeerId;

use crate::network::Network;
use crate::run::{done, drill, fed, scratch};

/// The genesis point and 20 rounds of 13 peers, 261 points: more than a book of 65,536 bytes holds.
fn large_feed() -> Vec<u8> {
    let digest = |round, peer| std::array::from_fn(|place| [round as u8, peer as u8, 1, 1][place % 4]);
    Network { peers: (1..=13).map(|byte| PeerId([byte; 32])).collect(), digest }.feed(20)
}

#[test]
fn a_book_grows_as_its_feed_needs_it() {
    let (feed, file) = (large_feed(), scratch("grown.book"));
    let out = done(&["explain", "-", "--book", &file], &feed);
    let summary = "\n\npoints: 261\nverdicts: 261 valid\nkept: 261\n\nnote: the book grew to ";
    assert!(out.contains(summary) && !out.contains("refused with number"), "{out}");
    let grown = std::fs::read(&file).expect("it is written");
    // the same as if it had had this size from the beginning
    assert!(grown.len() > 65_536 && out.contains(&format!("grew to {} bytes; ", grown.len())), "{}", grown.len());
    let (room, fixed) = (grown.len().to_string(), scratch("fixed.book"));
    let of_fixed = done(&["explain", "-", "--book", &fixed, "--room", &room], &feed);
    assert_eq!(std::fs::read(&fixed).expect("it is written"), grown);
    assert_eq!(out.split("\n\nnote: ").next(), of_fixed.strip_suffix('\n'));
    assert!(done(&["show", "-"], &feed).contains(">Points kept: 261 of 261 offered<"));
}

#[test]
fn a_book_of_a_named_size_says_how_to_get_a_larger_one() {
    let feed = large_feed();
    let tally = done(&["tally"], &feed);
    let refused = tally.lines().filter(|line| line.ends_with(" - 0 12")).count();
    let kept: usize = tally.lines().last().and_then(|end| end.strip_prefix("end ")?.parse().ok()).expect("it ends so");
    assert_eq!(kept + refused, 261);
    assert!(kept < 100, "tally's book is as large as document 01 says, and keeps {kept}");
    let note = format!(
        "{refused} points were refused for lack of room: --room takes up to 16777216, and without it the book grows\n"
    );
    let out = done(&["explain", "-", "--room", "65536"], &feed);
    assert!(out.ends_with(&format!("\nkept: {kept}\n\nnote: {note}")), "{out}");
    assert!(done(&["explain", "-", "--room=65536", "--last"], &feed).ends_with(&format!("\n\nnote: {note}")));
    let ran = fed(&["show", "-", "--room", "65536"], &feed);
    assert_eq!((ran.code, ran.err), (Some(0), format!("wutherdish: {note}")));
    let title = format!(">Points kept: {kept} of 261 offered, {refused} refused for lack of room<");
    assert!(ran.out.contains(&title), "{title}");
}

#[test]
fn a_drill_for_number_12_is_explained_with_tallys_room() {
    let feed = drill("number-12");
    let out = done(&["explain", "-", "--last", "--room", "65536"], &feed);
    assert!(
        out.contains("\n      refused with number 12: ") && out.contains("\n\nnote: 1 point was refused for lack of ")
    );
    assert!(!done(&["explain", "-", "--last"], &feed).contains("refused"));
}
