//! What a crew reads: one line for every answer, without a final period. "It" is the judged point. Ids are cut short;
//! the alternate form (`{:#}`) shows them whole.

mod clearing;
mod fault;
mod ill_formed;
mod invalid;

use std::error::Error;
use std::fmt::{self, Display, Formatter};

use crate::invalid::{InvalidDependency, InvalidReason};
use crate::kept::{Kept, Status};
use crate::link::{AnchorLink, IndirectLink, Through};
use crate::names::{IllFormedNumber, InvalidNumber};
use crate::point::PointRole;
use crate::reasons::{
    AnchorStageRole, IllFormedReason, PointMap, StructureIssue, UninitVset, Verdict, Verified, VerifyError,
};

/// A part of a text, with whole ids if the text is asked for with whole ids.
pub(crate) struct Part<'a, T>(pub &'a T, pub bool);

impl<T: Display> Display for Part<'_, T> {
    fn fmt(&self, f: &mut Formatter<'_>) -> fmt::Result {
        let Self(part, whole) = self;
        if *whole { write!(f, "{part:#}") } else { write!(f, "{part}") }
    }
}

/// A kind of verdict, and what it says.
fn kind(f: &mut Formatter<'_>, kind: &str, why: &impl Display) -> fmt::Result {
    write!(f, "{kind}: {}", Part(why, f.alternate()))
}

impl Display for Verdict {
    fn fmt(&self, f: &mut Formatter<'_>) -> fmt::Result {
        match self {
            Self::Fail(vset) => kind(f, FAIL, vset),
            Self::IllFormed(reason) => kind(f, ILL_FORMED, reason),
            Self::Invalid(reason) => kind(f, INVALID, reason),
            Self::TransInvalid(dependency) => kind(f, TRANS_INVALID, dependency),
            Self::Valid => f.write_str(VALID),
        }
    }
}

const FAIL: &str = "cannot be verified";
const ILL_FORMED: &str = "ill-formed";
const INVALID: &str = "invalid";
const TRANS_INVALID: &str = "trans-invalid";
const VALID: &str = "valid";

impl Display for Verified {
    fn fmt(&self, f: &mut Formatter<'_>) -> fmt::Result {
        match self {
            Self::Passed => f.write_str("verified: it may be judged"),
            Self::Failed(error) => error.fmt(f),
        }
    }
}

impl Display for VerifyError {
    fn fmt(&self, f: &mut Formatter<'_>) -> fmt::Result {
        match self {
            Self::Fail(vset) => kind(f, FAIL, vset),
            Self::IllFormed(reason) => kind(f, ILL_FORMED, reason),
        }
    }
}

impl Display for UninitVset {
    fn fmt(&self, f: &mut Formatter<'_>) -> fmt::Result {
        let Self { len, round, map } = self;
        write!(f, "the schedule has {len} peers for round {round}, by which its {map} map is checked: ")?;
        f.write_str("it needs 3 or more, and for the genesis round exactly 1")
    }
}

impl Display for InvalidDependency {
    fn fmt(&self, f: &mut Formatter<'_>) -> fmt::Result {
        let IndirectLink { to, through } = self.link;
        let (to, through) = (Part(&to, f.alternate()), Part(&through, f.alternate()));
        write!(
            f,
            "it comes after the {to} through {through}, and that point is invalid: {}",
            InvalidNumber(self.reason)
        )
    }
}

impl Display for Status {
    fn fmt(&self, f: &mut Formatter<'_>) -> fmt::Result {
        match self {
            Self::Valid => f.write_str(VALID),
            Self::TransInvalid(dependency) => kind(f, TRANS_INVALID, dependency),
            Self::Invalid { reason } => kind(f, INVALID, &InvalidNumber(*reason)),
            Self::IllFormed { reason } => kind(f, ILL_FORMED, &IllFormedNumber(*reason)),
        }
    }
}

impl Display for Kept {
    fn fmt(&self, f: &mut Formatter<'_>) -> fmt::Result {
        let mark = if self.certified { "certified " } else { "" };
        let (id, status) = (Part(&self.point.id, f.alternate()), Part(&self.status, f.alternate()));
        write!(f, "{mark}{id}: {status}")
    }
}

impl Display for PointRole {
    fn fmt(&self, f: &mut Formatter<'_>) -> fmt::Result {
        match self {
            Self::Regular => f.write_str("regular"),
            Self::AnchorProof { seq_no, is_last: false } => write!(f, "anchor proof {seq_no}"),
            Self::AnchorProof { seq_no, is_last: true } => write!(f, "anchor proof {seq_no}, the last"),
            Self::AnchorTrigger => f.write_str("anchor trigger"),
            Self::Genesis => f.write_str("genesis"),
        }
    }
}

impl Display for Through {
    fn fmt(&self, f: &mut Formatter<'_>) -> fmt::Result {
        write!(f, "{} in its {}", Part(&self.peer(), f.alternate()), self.map())
    }
}

impl Display for IndirectLink {
    fn fmt(&self, f: &mut Formatter<'_>) -> fmt::Result {
        write!(f, "to the {} through {}", Part(&self.to, f.alternate()), Part(&self.through, f.alternate()))
    }
}

impl Display for AnchorLink {
    fn fmt(&self, f: &mut Formatter<'_>) -> fmt::Result {
        match self {
            Self::Direct(through) => write!(f, "direct to the point of {}", Part(through, f.alternate())),
            Self::Indirect(link) => write!(f, "indirect {}", Part(link, f.alternate())),
        }
    }
}

impl Display for PointMap {
    fn fmt(&self, f: &mut Formatter<'_>) -> fmt::Result {
        f.write_str(match self {
            Self::Evidence => "evidence",
            Self::Includes => "includes",
            Self::Witness => "witness",
        })
    }
}

impl Display for AnchorStageRole {
    fn fmt(&self, f: &mut Formatter<'_>) -> fmt::Result {
        f.write_str(match self {
            Self::Proof => "proof",
            Self::Trigger => "trigger",
        })
    }
}

impl Error for VerifyError {}
impl Error for UninitVset {}
impl Error for IllFormedReason {}
impl Error for StructureIssue {}
impl Error for InvalidReason {}
