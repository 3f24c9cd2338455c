//! Feeds to drill with: by name, the smallest one that gives each verdict, each reason and each number, and a few that tell
//! a story.
//!
//! Smallest means fewest offers, then fewest peers. So a feed leaves out what its last answer doesn't depend on, even parents
//! and the genesis point. What was never offered is not found (19), but the last reason that is found stays: in such a feed
//! the dependency that decides is the last one of the list. The stories leave out nothing but what they tell of.
//!
//! What no feed can give stands in a case for verifying, judging, writing, converting or what the network can force, and so does what a
//! list leaves out. Number 10 has no drill: it is given for a damaged book, which neither a feed nor a case can hold. The reasons that
//! are never given have none either: ill-formed 1 and 2, invalid 1 and 20.

mod demo;
mod ill_formed;
mod input;
mod invalid;
mod lists;
mod numbers;
mod stories;
mod verdicts;
mod world;

/// The bytes of a file.
#[derive(Clone, PartialEq, Eq, Debug)]
pub enum Input {
    /// What `tally` reads: settings, a schedule, then leader byte and record of each point. Its points are offered to a
    /// book of 65,536 bytes.
    Feed(Vec<u8>),
    /// One call: kind (1 verify, 2 judge, 16 write, 17 convert, 18 judge with a trail, 19 what the network can force), the number of
    /// blobs (1), then each blob as its length (4, little-endian) and its bytes. Verifying: settings, schedule, record, the peer buffer's
    /// length (4). Judging: settings, schedule, record, leader and presence (2), list, the peer buffer's length (4), and with a trail its
    /// length (4). What the network can force: as judging, with the output's length (4) for the peer buffer's. Writing: id (68), payload
    /// (8), includes, witness, evidence, proof link (102), trigger link (102), role, seq_no and is_last (3), times (16), the output's
    /// length (4). Converting: 0 from pairs to columns or 1 back (1), record, the output's length (4).
    Case(Vec<u8>),
}

/// An input with the answer that it is there for.
#[derive(Clone, PartialEq, Eq, Debug)]
pub struct Drill {
    /// Its name.
    pub name: &'static str,
    /// What it shows, in one line.
    pub what: &'static str,
    /// What is handed over.
    pub input: Input,
    /// What is answered.
    pub answer: Answer,
}

/// The answer to a case, or to the last point of a feed; to the feed itself where it has no readable point.
#[derive(Clone, Copy, PartialEq, Eq, Debug)]
pub enum Answer {
    /// A verdict, as `tally` prints it.
    Verdict {
        /// F fail, L ill-formed, I invalid, T trans-invalid, V valid.
        letter: char,
        /// The reason's number; 0 if there is none.
        reason: u8,
    },
    /// A number in place of a verdict.
    Number(u8),
}

impl Input {
    /// The bytes, whichever they are.
    pub fn bytes(&self) -> &[u8] {
        match self {
            Self::Feed(bytes) | Self::Case(bytes) => bytes,
        }
    }
}

/// All drills: verdicts, reasons and numbers in their order, then the stories and the lists.
pub fn all() -> Vec<Drill> {
    let mut all = [verdicts::drills(), ill_formed::drills(), invalid::drills(), numbers::drills()].concat();
    all.extend([stories::drills(), lists::drills(), vec![demo::drill()]].concat());
    all
}

/// The drill of this name, if there is one.
pub fn named(name: &str) -> Option<Drill> {
    all().into_iter().find(|drill| drill.name == name)
}
