//! What the calls answer, under the names of the source's verifier.rs.

use crate::id::PeerId;
use crate::invalid::{InvalidDependency, InvalidReason};

/// `Result<(), VerifyError>` of the source.
#[derive(Clone, PartialEq, Eq, Debug)]
pub enum Verified {
    /// The point may be judged.
    Passed,
    /// The point may not be judged.
    Failed(VerifyError),
}

/// Why a point did not pass verification.
#[derive(Clone, PartialEq, Eq, Debug)]
pub enum VerifyError {
    /// It can't be verified.
    Fail(UninitVset),
    /// It is ill-formed.
    IllFormed(IllFormedReason),
}

/// What judging answers: `VerifyError` or `ValidateResult` of the source.
#[derive(Clone, PartialEq, Eq, Debug)]
pub enum Verdict {
    /// The point can't be verified.
    Fail(UninitVset),
    /// The point breaks a rule by itself.
    IllFormed(IllFormedReason),
    /// The point breaks a rule on its dependencies.
    Invalid(InvalidReason),
    /// Only an ancestor is bad.
    TransInvalid(InvalidDependency),
    /// Nothing is wrong.
    Valid,
}

/// A peer set of a length that verification can't use.
#[derive(Clone, Copy, PartialEq, Eq, Debug)]
pub struct UninitVset {
    /// How many peers the set has.
    pub len: u32,
    /// The round whose set it is.
    pub round: u32,
    /// The map that would be checked against it.
    pub map: PointMap,
}

/// What makes a point ill-formed. The source's AfterLoadFromDb and EvidenceSigError are never given by a call: they
/// have no case here. NotRegular and BadWaveLink are given by judging alone.
#[derive(Clone, PartialEq, Eq, Debug)]
pub enum IllFormedReason {
    /// 3: its round is before genesis.
    BeforeGenesis,
    /// 4: its author is not among the peers of its round.
    UnknownAuthor,
    /// 5: it is of the genesis round with another digest than that of genesis.
    FalseGenesis,
    /// 6: its payload is over `payload_batch_bytes`, or it is genesis and has a payload.
    TooLargePayload {
        /// The payload's bytes.
        bytes: u32,
    },
    /// 7: its role, maps, links and times do not fit together.
    Structure(StructureIssue),
    /// 8: its seq_no is over `sticky_anchors`.
    TooManyStickyAnchors {
        /// The proof's seq_no.
        seq_no: u8,
    },
    /// 9: its `is_last` is not set exactly at the seq_no `sticky_anchors`.
    BadLastStickyFlag,
    /// 10: a link of it leads to a round before genesis.
    LinksAcrossGenesis,
    /// 11: evidence at genesis, or a witness at genesis or one round later.
    MustBeEmpty {
        /// The map that is not empty.
        map: PointMap,
    },
    /// 12: a map has peers outside the set by which it is checked.
    UnknownPeers {
        /// The unknown peers, rising.
        peers: Vec<PeerId>,
        /// The map that has them.
        map: PointMap,
    },
    /// 13: the author of an indirect link's target is not among the peers of that round.
    UnknownPeerInAnchorLink {
        /// The link's role.
        role: AnchorStageRole,
    },
    /// 14: a map has too few peers: evidence needs 2F, includes 2F+1.
    LackOfPeers {
        /// The map's length.
        len: u32,
        /// The set that it is checked against.
        peer_count: PeerCount,
        /// The map that is too short.
        map: PointMap,
    },
    /// 15: it is not regular, although its round and the fourth after it are in different spans.
    NotRegular,
    /// 16: a proof with seq_no 0 whose author doesn't lead the round or whose proof link is not far enough, or a
    /// leader's regular point that should have been a proof.
    BadWaveLink {
        /// Whether the author is the leader.
        is_leader: bool,
    },
}

/// What is wrong with a point's structure.
#[derive(Clone, Copy, PartialEq, Eq, Debug)]
pub enum StructureIssue {
    /// It is of the genesis round without the genesis role, or has that role in another round.
    ExpectedGenesis {
        /// Whether the role should be genesis.
        expected: bool,
    },
    /// A genesis point doesn't include its author with a digest of zeros, or its links are not both direct through
    /// that.
    BadGenesisPrevPoint,
    /// The author is in its evidence or witness; or, for includes, exactly one of the previous point and the evidence
    /// is there.
    AuthorInMap {
        /// The map.
        map: PointMap,
    },
    /// The proof link of a trigger, or of a proof with a seq_no over 0, is not a direct one to its author's previous
    /// point.
    TriggerBadProofLink,
    /// A link's peer is not in its map, or its target is not older than that map.
    Link {
        /// The link's role.
        role: AnchorStageRole,
        /// The map that it goes through.
        map: PointMap,
    },
    /// The time is not after the anchor time, or at genesis not the same.
    AnchorTime,
    /// A proof or a trigger has no previous point.
    NoPrevPoint,
}

/// A map of a point.
#[derive(Clone, Copy, PartialEq, Eq, Debug)]
pub enum PointMap {
    /// Who signed the previous point.
    Evidence,
    /// Points of the round before.
    Includes,
    /// Points of the round before that one.
    Witness,
}

/// Which of a point's two anchor links.
#[derive(Clone, Copy, PartialEq, Eq, Debug)]
pub enum AnchorStageRole {
    /// To the anchor proof.
    Proof,
    /// To the anchor trigger.
    Trigger,
}

/// F of a peer set of 3F+1.
#[derive(Clone, Copy, PartialEq, Eq, Debug)]
pub struct PeerCount(
    /// F.
    pub u8,
);

impl IllFormedReason {
    /// Document 01's number: the place of the variant as the source declares it.
    pub fn number(&self) -> u8 {
        match self {
            Self::BeforeGenesis => 3,
            Self::UnknownAuthor => 4,
            Self::FalseGenesis => 5,
            Self::TooLargePayload { .. } => 6,
            Self::Structure(_) => 7,
            Self::TooManyStickyAnchors { .. } => 8,
            Self::BadLastStickyFlag => 9,
            Self::LinksAcrossGenesis => 10,
            Self::MustBeEmpty { .. } => 11,
            Self::UnknownPeers { .. } => 12,
            Self::UnknownPeerInAnchorLink { .. } => 13,
            Self::LackOfPeers { .. } => 14,
            Self::NotRegular => 15,
            Self::BadWaveLink { .. } => 16,
        }
    }
}

impl Verdict {
    /// The letter that `tally` prints: F fail, L ill-formed, I invalid, T trans-invalid, V valid.
    pub fn letter(&self) -> char {
        match self {
            Self::Fail(_) => 'F',
            Self::IllFormed(_) => 'L',
            Self::Invalid(_) => 'I',
            Self::TransInvalid(_) => 'T',
            Self::Valid => 'V',
        }
    }

    /// The number of its reason, 0 if there is none: a trans-invalid point's reason is its root's.
    pub fn reason_number(&self) -> u8 {
        match self {
            Self::IllFormed(reason) => reason.number(),
            Self::Invalid(reason) => reason.number(),
            Self::Fail(_) | Self::TransInvalid(_) | Self::Valid => 0,
        }
    }
}

impl PeerCount {
    /// 3F+1.
    pub fn full(self) -> usize {
        usize::from(self.0) * 3 + 1
    }

    /// 2F+1.
    pub fn majority(self) -> usize {
        usize::from(self.0) * 2 + 1
    }

    /// 2F: the author is not counted.
    pub fn majority_of_others(self) -> usize {
        usize::from(self.0) * 2
    }
}
