//! A second judge, written from document 01 and the source, without futures and over what was read.
//!
//! It answers as the oracle does, but for one mistake that can be put into it: the cases have to notice each.

mod anchor;
mod judge;
mod list;
mod mistake;
mod verify;

pub use mistake::Mistake;

use oracle::file::Case;
use oracle::numbers::{self, Read};
use oracle::row::Row;
use oracle::value::Entry;
use oracle::{Answer, Verdict};

/// How the one panic of the Rust inside document 01's domain begins: a set of 254 or 255 peers. This judge has none.
pub const KNOWN_PANIC: &str = "node count 3F+1=256 overflows u8";

/// A case as it reads: numbers 1 to 5, and 7 for the list.
pub struct Prepared {
    read: Result<Read, u8>,
    judged: Option<Judged>,
}

/// What judging gets beside the point.
struct Judged {
    leader: bool,
    presence: u8,
    entries: Result<Vec<Entry>, u8>,
}

impl Prepared {
    pub fn new(case: &Case) -> Self {
        match case {
            Case::Verify { settings, schedule, record, peer_buffer } => {
                let read = numbers::before(settings, schedule, record, 0, 0, *peer_buffer);
                Self { read, judged: None }
            }
            Case::Judge { settings, schedule, record, leader, presence, list, peer_buffer } => {
                let read = numbers::before(settings, schedule, record, *leader, *presence, *peer_buffer);
                let entries = numbers::entries(list);
                Self { read, judged: Some(Judged { leader: *leader == 1, presence: *presence, entries }) }
            }
        }
    }

    /// The answer, with a mistake made on the way.
    pub fn answer(&self, mistake: Option<Mistake>) -> Answer {
        self.trail(mistake).0
    }

    /// The answer and the rows of its trail, likewise. Verifying has none.
    pub fn trail(&self, mistake: Option<Mistake>) -> (Answer, Vec<Row>) {
        let read = match &self.read {
            Ok(read) => read,
            Err(number) => return (Answer::Number(*number), Vec::new()),
        };
        let rules = Rules { read, mistake };
        let given = match &self.judged {
            Some(judged) => rules.judge(judged),
            None => rules.verify().map(|()| (passed(), Vec::new())).map_err(Refused::Verdict),
        };
        match given {
            Ok((verdict, rows)) => (verdict.into(), rows),
            Err(Refused::Verdict(verdict)) => (verdict.into(), Vec::new()),
            Err(Refused::Number(number)) => (Answer::Number(number), Vec::new()),
        }
    }
}

fn passed() -> Verdict {
    Verdict::new(oracle::answer::PASSED, 0)
}

/// Why judging ends before its end.
enum Refused {
    Number(u8),
    Verdict(Verdict),
}

/// The rules over one case, with the mistake that is made in them.
struct Rules<'a> {
    read: &'a Read,
    mistake: Option<Mistake>,
}

impl Rules<'_> {
    fn made(&self, mistake: Mistake) -> bool {
        self.mistake == Some(mistake)
    }
}
