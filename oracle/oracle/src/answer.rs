//! Answers: the 114 bytes of the C calls, the unknown peers beside them, and a readable line.

use std::fmt::{self, Display, Formatter};

use crate::numbers;
use crate::value::{Id, Peer};
use crate::write;

#[derive(Clone, PartialEq, Eq, Debug)]
pub enum Answer {
    /// Document 01's number in place of a verdict.
    Number(u8),
    Verdict(Box<Verdict>),
    /// The Rust panicked, with this message.
    Panic(String),
}

/// Unknown peers rise. Fields that a verdict doesn't have hold what `Verdict::new` gives them.
#[derive(Clone, PartialEq, Eq, Debug)]
pub struct Verdict {
    pub kind: u8,
    pub reason: u8,
    pub id: Option<Id>,
    pub map: u8,
    pub role: u8,
    pub first: u32,
    pub second: u32,
    pub root_reason: u8,
    pub peer: Option<Peer>,
    pub unknown: Vec<Peer>,
}

pub const VALID: u8 = 0;
pub const TRANS_INVALID: u8 = 1;
pub const INVALID: u8 = 2;
pub const ILL_FORMED: u8 = 3;
pub const FAIL: u8 = 4;
pub const PASSED: u8 = 5;

pub const EVIDENCE: u8 = 0;
pub const INCLUDES: u8 = 1;
pub const WITNESS: u8 = 2;
pub const PROOF: u8 = 0;
pub const TRIGGER: u8 = 1;
pub const NONE: u8 = 255;

pub const ILL_FORMED_REASONS: [&str; 16] = [
    "AfterLoadFromDb",
    "EvidenceSigError",
    "BeforeGenesis",
    "UnknownAuthor",
    "FalseGenesis",
    "TooLargePayload",
    "Structure",
    "TooManyStickyAnchors",
    "BadLastStickyFlag",
    "LinksAcrossGenesis",
    "MustBeEmpty",
    "UnknownPeers",
    "UnknownPeerInAnchorLink",
    "LackOfPeers",
    "NotRegular",
    "BadWaveLink",
];

pub const INVALID_REASONS: [&str; 20] = [
    "AfterLoadFromDb",
    "NoRoundInDag",
    "DependencyRoundDropped",
    "NotTrigger",
    "TerminalTriggerBeforeLastProof",
    "TimeNotGreaterThanInPrevPoint",
    "AnchorProofDoesntInheritAnchorTime",
    "AnchorTimeNotInheritedFromProof",
    "MustHaveReferencedPrevPoint",
    "MustHaveSkippedRound",
    "DependencyTimeTooFarInFuture",
    "NewerAnchorInDependency",
    "AnchorLink",
    "AnchorLinkRole",
    "AnchorLinkBadPath",
    "BadStickySequence",
    "TriggerProofMismatch",
    "DepIllFormed",
    "DepNotFound",
    "AfterLoadFromDb without a DAG round",
];

pub const STRUCTURE_ISSUES: [&str; 7] = [
    "ExpectedGenesis",
    "BadGenesisPrevPoint",
    "AuthorInMap",
    "TriggerBadProofLink",
    "Link",
    "AnchorTime",
    "NoPrevPoint",
];

pub const MAPS: [&str; 3] = ["evidence", "includes", "witness"];
pub const ROLES: [&str; 2] = ["proof", "trigger"];

impl Verdict {
    pub fn new(kind: u8, reason: u8) -> Self {
        Self {
            kind,
            reason,
            id: None,
            map: NONE,
            role: NONE,
            first: 0,
            second: 0,
            root_reason: 0,
            peer: None,
            unknown: Vec::new(),
        }
    }

    /// The answer as the C calls lay it out.
    pub fn bytes(&self) -> [u8; 114] {
        let mut out = [0; 114];
        out[0] = self.kind;
        out[1] = self.reason;
        if let Some(id) = &self.id {
            out[2..70].copy_from_slice(&write::id(id));
        }
        out[70] = self.map;
        out[71] = self.role;
        out[72..76].copy_from_slice(&self.first.to_le_bytes());
        out[76..80].copy_from_slice(&self.second.to_le_bytes());
        out[80] = self.root_reason;
        out[81..113].copy_from_slice(&self.peer.unwrap_or_default());
        out[113] = self.unknown.len() as u8;
        out
    }

    pub fn reason_name(&self) -> &'static str {
        match self.kind {
            INVALID => INVALID_REASONS[usize::from(self.reason) - 1],
            ILL_FORMED => ILL_FORMED_REASONS[usize::from(self.reason) - 1],
            _ => "",
        }
    }
}

impl From<Verdict> for Answer {
    fn from(verdict: Verdict) -> Self {
        Self::Verdict(Box::new(verdict))
    }
}

impl Display for Answer {
    fn fmt(&self, f: &mut Formatter<'_>) -> fmt::Result {
        match self {
            Self::Number(number) => write!(f, "number {number} {}", numbers::WORDS[usize::from(*number) - 1]),
            Self::Panic(message) => write!(f, "panic {message}"),
            Self::Verdict(verdict) => verdict.fmt(f),
        }
    }
}

impl Display for Verdict {
    fn fmt(&self, f: &mut Formatter<'_>) -> fmt::Result {
        let kinds = ["valid", "trans-invalid", "invalid", "ill-formed", "fail", "passed"];
        write!(f, "{}", kinds[usize::from(self.kind)])?;
        if self.reason != 0 {
            write!(f, " {} {}", self.reason, self.reason_name())?;
        }
        if let Some(id) = &self.id {
            write!(f, " round {} digest ", id.round)?;
            hex(f, &id.digest)?;
            write!(f, " author ")?;
            hex(f, &id.author)?;
        }
        if self.map != NONE {
            write!(f, " {}", MAPS[usize::from(self.map)])?;
        }
        if self.role != NONE {
            write!(f, " {}", ROLES[usize::from(self.role)])?;
        }
        if self.kind == TRANS_INVALID {
            write!(f, " root's reason {} {}", self.root_reason, INVALID_REASONS[usize::from(self.root_reason) - 1])?;
        } else if (self.first, self.second) != (0, 0) {
            write!(f, " numbers {} {}", self.first, self.second)?;
        }
        if let Some(peer) = &self.peer {
            write!(f, " peer ")?;
            hex(f, peer)?;
        }
        for peer in &self.unknown {
            write!(f, " unknown ")?;
            hex(f, peer)?;
        }
        Ok(())
    }
}

fn hex(f: &mut Formatter<'_>, bytes: &[u8]) -> fmt::Result {
    bytes.iter().try_for_each(|byte| write!(f, "{byte:02x}"))
}
