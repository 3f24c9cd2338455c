//! One case through both, and what to say where they part.

use oracle::Answer;
use oracle::file::Case;
use plain::{KNOWN_PANIC, Prepared};

use crate::lent::{Expected, Lent};
use crate::report::report;

/// An answer that both gave.
pub enum Agreed {
    Rust(Answer),
    /// The Rust panicked, as is known; the plain judge, which doesn't, answered as the library did.
    Plain(Answer),
}

/// Runs a case; the error says how the two differ.
pub fn compare(case: &Case, lent: &mut Lent) -> Result<Agreed, String> {
    lent.call(case);
    match case.answer() {
        Answer::Panic(message) if message.starts_with(KNOWN_PANIC) => {
            let answer = Prepared::new(case).answer(None);
            agree(case, &answer, lent)?;
            Ok(Agreed::Plain(answer))
        }
        answer => {
            agree(case, &answer, lent)?;
            Ok(Agreed::Rust(answer))
        }
    }
}

fn agree(case: &Case, answer: &Answer, lent: &Lent) -> Result<(), String> {
    match Expected::new(answer) {
        Some(expected) if lent.is(&expected) => Ok(()),
        expected => Err(report(case, &format!("the oracle: {answer}"), expected.as_ref(), lent)),
    }
}

/// The Rust's answer; where it panics, as is known, the plain judge's.
pub fn answer(case: &Case) -> Answer {
    match case.answer() {
        Answer::Panic(message) if message.starts_with(KNOWN_PANIC) => Prepared::new(case).answer(None),
        answer => answer,
    }
}
