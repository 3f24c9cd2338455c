//! How often each verdict came.

use std::collections::BTreeMap;
use std::fmt::{self, Display, Formatter};

use wutherdish::{Clearing, Kept, Refusal};

use crate::calls::Answer;

/// The answers by `tally`'s letters, in the order of a summary. P, C, W, small letters and digits are none of them: `tally` only judges.
const KINDS: [(char, &str); 15] = [
    ('V', "valid"),
    ('P', "passed"),
    ('C', "converted"),
    ('W', "written"),
    ('n', "chosen by the network"),
    ('a', "forced by the author"),
    ('o', "invalid in no order"),
    ('1', "waiting for a certificate"),
    ('2', "cleared by no single certificate"),
    ('0', "waiting for no certificate"),
    ('T', "trans-invalid"),
    ('I', "invalid"),
    ('L', "ill-formed"),
    ('F', "not verifiable"),
    ('-', "refused with number"),
];

/// How often each kind of answer came: by its place among the kinds, and its number if it was refused.
#[derive(Default)]
pub struct Summary(BTreeMap<(usize, Option<u8>), usize>);

impl Summary {
    /// Of a book.
    pub fn of_kept(kept: &[Kept]) -> Self {
        let mut summary = Self::default();
        kept.iter().for_each(|entry| summary.count(entry.status.letter(), None));
        summary
    }

    /// Counts an answer.
    pub fn add(&mut self, answer: &Result<Answer, Refusal>) {
        match answer {
            Ok(Answer::Passed) => self.count('P', None),
            Ok(Answer::Converted) => self.count('C', None),
            Ok(Answer::Written) => self.count('W', None),
            Ok(Answer::Forced(reasons)) => {
                let letter = match reasons[..] {
                    [] => 'o',
                    [_] => 'a',
                    [..] => 'n',
                };
                self.count(letter, None);
            }
            Ok(Answer::Clearing(Clearing::ClearedBy(_))) => self.count('1', None),
            Ok(Answer::Clearing(Clearing::NoSingleMark)) => self.count('2', None),
            Ok(Answer::Clearing(Clearing::NotWaiting)) => self.count('0', None),
            Ok(Answer::Verdict(verdict) | Answer::Judged(verdict, _)) => self.count(verdict.letter(), None),
            Err(refusal) => self.count('-', Some(refusal.number())),
        }
    }

    /// How many were counted.
    pub fn total(&self) -> usize {
        self.0.values().sum()
    }

    fn count(&mut self, letter: char, number: Option<u8>) {
        let kind = KINDS.iter().position(|kind| kind.0 == letter).unwrap_or(KINDS.len() - 1);
        *self.0.entry((kind, number)).or_default() += 1;
    }
}

impl Display for Summary {
    fn fmt(&self, f: &mut Formatter<'_>) -> fmt::Result {
        if self.0.is_empty() {
            return f.write_str("none");
        }
        let mut comma = "";
        for ((kind, number), count) in &self.0 {
            write!(f, "{comma}{count} {}", KINDS[*kind].1)?;
            number.map_or(Ok(()), |number| write!(f, " {number}"))?;
            comma = ", ";
        }
        Ok(())
    }
}
