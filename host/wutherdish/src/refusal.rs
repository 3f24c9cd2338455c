//! Document 01's numbers in place of a verdict.

use std::error::Error;
use std::fmt::{self, Display, Formatter};

/// Why a call gave no verdict. Nothing that was lent has changed.
#[derive(Clone, Copy, PartialEq, Eq, Debug)]
#[non_exhaustive]
pub enum Refusal {
    /// 1: settings are unreadable or outside their limits.
    Settings,
    /// 2: the schedule is unreadable.
    Schedule,
    /// 3: the point record is unreadable; or, of a point that is to be written, a map has over 255 rows or not whole ones.
    Record,
    /// 4: the point's round or a time of it, the leader flag or the presence is outside the domain; or, of a point that is to be
    /// written, a link, the role or its last flag.
    Domain,
    /// 5: the slice to open a book in is shorter than its settings or longer than a book may be; or, in the calls on
    /// [`lent`](crate::lent) bytes, the peer buffer is too short.
    Short,
    /// 6: the point's round or the fourth after it is in no span of the schedule.
    Horizon,
    /// 7: the list is unreadable or outside the domain.
    Entries,
    /// 8: the list has an entry that is not the point's, or one twice, or lacks dependencies.
    Mismatch,
    /// 9: the previous point's entry is not certified.
    Uncovered,
    /// 10: the bytes are no book.
    Book,
    /// 11: the point is in the book already.
    Kept,
    /// 12: the book has no room for the point.
    Full,
    /// 13: a peer stands twice in a map of the point that is to be written.
    Twice,
    /// 14: the output is shorter than what is to be written.
    Output,
    /// 15: the lent trail is too short for the rows. [`judge_with_trail`](crate::judge_with_trail) never gives it.
    Trail,
    /// 17: the lent list is too short for the reasons that the network can force. [`force`](crate::force) never gives it.
    Forced,
    /// The library answered what this version of the crate doesn't know, with this number: it is another version's.
    Foreign(u8),
}

/// The refusals with a number of document 01.
const NUMBERED: [Refusal; 16] = [
    Refusal::Settings,
    Refusal::Schedule,
    Refusal::Record,
    Refusal::Domain,
    Refusal::Short,
    Refusal::Horizon,
    Refusal::Entries,
    Refusal::Mismatch,
    Refusal::Uncovered,
    Refusal::Book,
    Refusal::Kept,
    Refusal::Full,
    Refusal::Twice,
    Refusal::Output,
    Refusal::Trail,
    Refusal::Forced,
];

impl Refusal {
    /// The refusal that a call's number says.
    pub fn new(number: u8) -> Self {
        NUMBERED.into_iter().find(|refusal| refusal.number() == number).unwrap_or(Self::Foreign(number))
    }

    /// The number that the call gave.
    pub fn number(self) -> u8 {
        match self {
            Self::Settings => 1,
            Self::Schedule => 2,
            Self::Record => 3,
            Self::Domain => 4,
            Self::Short => 5,
            Self::Horizon => 6,
            Self::Entries => 7,
            Self::Mismatch => 8,
            Self::Uncovered => 9,
            Self::Book => 10,
            Self::Kept => 11,
            Self::Full => 12,
            Self::Twice => 13,
            Self::Output => 14,
            Self::Trail => 15,
            Self::Forced => 17,
            Self::Foreign(number) => number,
        }
    }
}

impl Display for Refusal {
    fn fmt(&self, f: &mut Formatter<'_>) -> fmt::Result {
        f.write_str(match self {
            Self::Settings => "the settings can't be read, or one of them is outside its limits",
            Self::Schedule => "the schedule can't be read",
            Self::Record => "the point record can't be read, or a map to be written has over 255 rows or a part of one",
            Self::Domain => {
                "the point's round is not from 4 to 2147483647, a time of it is over 2^63 - 1, the leader flag is \
                 over 1, the presence over 3, or a link or a role to be written is unknown"
            }
            Self::Short => {
                "the slice to open a book in has under 47 or over 16777216 bytes, or a lent peer buffer under 8160"
            }
            Self::Horizon => "the point's round or the fourth after it is in no span of the schedule",
            Self::Entries => "the list can't be read, or a point in it is outside the domain",
            Self::Mismatch => "the list has an entry that is not the point's, or one twice, or lacks dependencies",
            Self::Uncovered => "the list has the point's previous point without a certificate",
            Self::Book => "the bytes are no book",
            Self::Kept => "the book keeps the point already",
            Self::Full => "the book keeps 4096 points already, or has no room for the record of this one",
            Self::Twice => "a peer stands twice in a map",
            Self::Output => "the lent output is too short for the record",
            Self::Trail => "the lent trail has under 8 bytes for each reason that is set",
            Self::Forced => "the lent list has under 8 bytes for each reason that the network can force",
            Self::Foreign(number) => {
                return write!(f, "the linked library is another version: its number {number} and answer are unknown");
            }
        })
    }
}

impl Error for Refusal {}
