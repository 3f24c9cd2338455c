//! What a book keeps, read from its bytes.

use crate::field::{Content, Fields, Unreadable};
use crate::id::{Digest, PeerId, PointId};
use crate::invalid::InvalidDependency;
use crate::link::{IndirectLink, Through};
use crate::point::Point;
use crate::reasons::Verdict;
use crate::settings::Settings;

/// A point with its verdict.
#[derive(Clone, PartialEq, Eq, Debug)]
pub struct Kept {
    /// The point.
    pub point: Point,
    /// Its verdict.
    pub status: Status,
    /// Whether it is marked certified: as the previous point of one that was offered later, or because the certificate of
    /// such a point spread to it.
    pub certified: bool,
}

/// A verdict as a book keeps it.
#[derive(Clone, Copy, PartialEq, Eq, Debug)]
pub enum Status {
    /// Nothing is wrong.
    Valid,
    /// Only an ancestor is bad.
    TransInvalid(InvalidDependency),
    /// The point breaks a rule on its dependencies.
    Invalid {
        /// The number of its [`InvalidReason`](crate::InvalidReason).
        reason: u8,
    },
    /// The point breaks a rule by itself.
    IllFormed {
        /// The number of its [`IllFormedReason`](crate::IllFormedReason).
        reason: u8,
    },
}

impl Kept {
    /// The point's id.
    pub fn id(&self) -> PointId {
        self.point.id
    }
}

impl Status {
    /// The letter that `tally` prints: L ill-formed, I invalid, T trans-invalid, V valid.
    pub fn letter(&self) -> char {
        match self {
            Self::Valid => 'V',
            Self::TransInvalid(_) => 'T',
            Self::Invalid { .. } => 'I',
            Self::IllFormed { .. } => 'L',
        }
    }

    /// The number of its reason, 0 if there is none: a trans-invalid point's reason is its root's.
    pub fn reason_number(&self) -> u8 {
        match *self {
            Self::Valid | Self::TransInvalid(_) => 0,
            Self::Invalid { reason } | Self::IllFormed { reason } => reason,
        }
    }

    /// As a book keeps a verdict; none for Fail, which is not kept.
    pub fn of(verdict: &Verdict) -> Option<Self> {
        match verdict {
            Verdict::Fail(_) => None,
            Verdict::IllFormed(reason) => Some(Self::IllFormed { reason: reason.number() }),
            Verdict::Invalid(reason) => Some(Self::Invalid { reason: reason.number() }),
            Verdict::TransInvalid(dependency) => Some(Self::TransInvalid(*dependency)),
            Verdict::Valid => Some(Self::Valid),
        }
    }
}

/// The entries after a book's settings. Whether they are in the domain, and nothing but zeros after them, is for an
/// offer to say.
pub(crate) fn read(book: &[u8]) -> Result<Vec<Kept>, Unreadable> {
    let (_, mut rest) = Settings::read(book)?;
    let mut kept = Vec::new();
    while rest.first().is_some_and(|first| *first != 0) {
        let at = book.len() - rest.len();
        let (entry, after) = read_entry(rest).map_err(|unreadable| unreadable.after(at))?;
        kept.push(entry);
        rest = after;
    }
    Ok(kept)
}

fn read_entry(bytes: &[u8]) -> Result<(Kept, &[u8]), Unreadable> {
    let (point, after) = Point::read(bytes)?;
    let at = bytes.len() - after.len();
    let mut fields = Fields::new(after);
    let verdict = fields.read(33, "a kept point's verdict, tag 33 with 105 bytes", read_verdict);
    let (status, certified) = verdict.map_err(|unreadable| unreadable.after(at))?;
    Ok((Kept { point, status, certified }, fields.rest()))
}

/// What stands in place of a root cause where there is none.
const NO_ROOT: InvalidDependency = InvalidDependency {
    link: IndirectLink {
        to: PointId { round: 0, digest: Digest([0; 32]), author: PeerId([0; 32]) },
        through: Through::Includes(PeerId([0; 32])),
    },
    reason: 0,
};

/// The verdict, and whether the point is marked certified.
fn read_verdict(content: &mut Content<'_>) -> Option<(Status, bool)> {
    let (state, certified, reason) = (content.u8()?, content.flag()?, content.u8()?);
    let (to, root_reason, through) = (PointId::read(content)?, content.u8()?, Through::read(content)?);
    let root = InvalidDependency { link: IndirectLink { to, through }, reason: root_reason };
    let status = match (state, reason, root_reason) {
        (0, 0, 0) => Status::Valid,
        (1, 0, 1..=20) => Status::TransInvalid(root),
        (2, 1..=20, 0) => Status::Invalid { reason },
        (3, 1..=16, 0) => Status::IllFormed { reason },
        _ => return None,
    };
    (state == 1 || root == NO_ROOT).then_some((status, certified))
}
