//! The stored books, which the program `replay` offers to.

use book::file::{Case, read};
use book::replay::Replay;
use book::spread::Mistake;
use book::{MARKS, Marks};
use oracle::file::blobs;

fn differences(cases: &[Case], marks: Marks) -> usize {
    let mut replay = Replay::new(marks);
    cases.iter().filter(|case| replay.answer(case) != **case).count()
}

#[test]
fn every_mistake_in_the_rule_for_marks_is_noticed() {
    let path = concat!(env!("CARGO_MANIFEST_DIR"), "/../../crates/replay/data/books.bin");
    let bytes = std::fs::read(path).expect("the file is there");
    let cases = blobs(&bytes).and_then(read).expect("a file of cases");
    assert_eq!(differences(&cases, MARKS), 0);
    for mistake in Mistake::ALL {
        assert_ne!(differences(&cases, Marks::Spread(Some(*mistake))), 0, "{}", mistake.text());
    }
}
