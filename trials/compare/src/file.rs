//! The cases of a file, laid out as docs/FORMAT.md says, against the answers in it.

use oracle::file::{self, Case};
use wutherdish::lent::ANSWER;

use crate::book_file::{self, Age, not_whole};
use crate::lent::{Expected, FILL, Lent};
use crate::report::report;

pub fn run(path: &str, age: Age) -> Result<(), String> {
    let bytes = age.bytes(path)?;
    let cases = file::read(&bytes).ok_or_else(|| not_whole(path))?;
    let mut lent = Lent::default();
    for (place, (case, answer)) in cases.iter().enumerate() {
        let expected = expected(answer).ok_or_else(|| format!("{path}: case {place} has no whole answer"))?;
        lent.call(case);
        if !lent.is(&expected) {
            let report = report(case, "the file:", Some(&expected), &lent);
            return Err(format!("{path}: case {place} differs\n{report}"));
        }
    }
    let judged = cases.iter().filter(|(case, _)| matches!(case, Case::Judge { .. })).count();
    let verified = cases.len() - judged;
    println!(
        "{path}: {verified} verify and {judged} judge cases answered as the file says, peer buffers byte for byte"
    );
    book_file::run(path, &bytes, age)
}

/// Number, 113 bytes of the answer, 40 zeros, the count of unknown peers and the peers.
pub fn expected(file_answer: &[u8]) -> Option<Expected> {
    let (&number, rest) = file_answer.split_first()?;
    let (head, rest) = rest.split_at_checked(ANSWER - 1)?;
    let (_, rest) = rest.split_at_checked(40)?;
    let (count, peers) = rest.split_first()?;
    let (unknown, []) = peers.as_chunks() else { return None };
    let answer = if number == 0 { [head, &[*count]].concat().try_into().ok()? } else { [FILL; ANSWER] };
    Some(Expected { number, answer, unknown: unknown.to_vec() })
}
