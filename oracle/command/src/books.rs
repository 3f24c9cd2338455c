//! The cases of a file that have a book, through the plain book.

use std::time::Instant;

use book::file::{self, Case};
use book::replay::{Renewed, Replay, renewed};
use book::{MARKS, Marks};
use oracle::arrangement::Arrangement;
use oracle::file::blobs;

use crate::vectors::bytes;

fn load(path: &str, arrangement: Arrangement) -> Result<Vec<Case>, String> {
    let bytes = bytes(path, arrangement)?;
    blobs(&bytes).and_then(file::read).ok_or_else(|| format!("{path}: not a whole file of cases"))
}

/// Says every difference: of numbers, answers, unknown peers, and the book's bytes by their sha256.
pub fn compare(path: &str) -> Result<(), String> {
    let cases = load(path, Arrangement::Columns)?;
    let start = Instant::now();
    let (mut replay, mut same) = (Replay::new(MARKS), 0);
    for (place, case) in cases.iter().enumerate() {
        let answered = replay.answer(case);
        if answered == *case {
            same += 1;
        } else {
            println!("case {place} of those with a book: {}", difference(case, &answered));
        }
    }
    let (seconds, other) = (start.elapsed().as_secs_f64(), cases.len() - same);
    println!("{} cases with a book in {seconds:.2} s: {same} the same, {other} others", cases.len());
    if other == 0 { Ok(()) } else { Err(format!("{other} answers with a book differ")) }
}

fn difference(expected: &Case, answered: &Case) -> String {
    if answered.answer() == expected.answer() {
        return "other bytes are left in the book".into();
    }
    if let Case::Tally { .. } = expected {
        let [printed, expected] = [answered, expected].map(|case| String::from_utf8_lossy(case.answer()).into_owned());
        return format!("tally prints\n{printed}expected\n{expected}");
    }
    let [gives, expected] = [answered, expected].map(|case| case.answer().iter().take(3).collect::<Vec<_>>());
    format!("the answer begins with {gives:?}, expected {expected:?}, or is another after that")
}

/// The same of a file of pairs in which marks go this far: its books by the sha256 of the book with pairs. Says how many cases are
/// others where marks spread.
pub fn compare_old(path: &str, marks: Marks) -> Result<(), String> {
    let cases = load(path, Arrangement::Pairs)?;
    let start = Instant::now();
    let Renewed { cases, others, answers } = renewed(cases, marks).map_err(|fault| format!("{path}: {fault}"))?;
    let (seconds, all) = (start.elapsed().as_secs_f64(), cases.len());
    println!("{all} cases with a book in {seconds:.2} s: all the same by the file's rule for marks;");
    println!("where marks spread {} the same, {others} others, {answers} of them in the answer", all - others);
    Ok(())
}
