//! What judging finds in a point's dependencies, under the names of the source's verifier.rs.

use crate::id::PointId;
use crate::link::IndirectLink;
use crate::reasons::{AnchorStageRole, PointMap};

/// What makes a point invalid. Each case but the first two names the point by which the rule is broken. The source's
/// AfterLoadFromDb is never given by a call: it has no case here. "Newest anchor" is the source's `AnchorView::top`:
/// the point itself if it has the role, else its link's target.
#[derive(Clone, Copy, PartialEq, Eq, Debug)]
pub enum InvalidReason {
    /// 2: the round of a map is not in the DAG; evidence stands for the point's own round.
    NoRoundInDag {
        /// The map whose round is not in the DAG.
        map: PointMap,
    },
    /// 3: a point that it is checked against was dropped with its round.
    DependencyRoundDropped,
    /// 4: the previous point is a proof or genesis, and this one neither a trigger nor a proof with a seq_no over 0.
    NotTrigger {
        /// The previous point.
        id: PointId,
    },
    /// 5: it is a trigger, and the previous point a proof that is not the last of its row.
    TerminalTriggerBeforeLastProof {
        /// The previous point.
        id: PointId,
    },
    /// 6: its time is not later than that of the previous point.
    TimeNotGreaterThanInPrevPoint {
        /// The previous point.
        id: PointId,
    },
    /// 7: it is a proof, and its anchor time is not the time of the previous point.
    AnchorProofDoesntInheritAnchorTime {
        /// The previous point.
        id: PointId,
    },
    /// 8: it is no proof, and its anchor time is not that of its proof link's source or indirect target.
    AnchorTimeNotInheritedFromProof {
        /// The source or the target.
        id: PointId,
    },
    /// 9: it includes no previous point, and this one is the first valid one there, or certified and not found.
    MustHaveReferencedPrevPoint {
        /// A point of its author, one round before.
        id: PointId,
    },
    /// 10: it includes no previous point, and this one, in that place, is trans-invalid, invalid or ill-formed.
    MustHaveSkippedRound {
        /// A point of its author, one round before.
        id: PointId,
    },
    /// 11: a point that it includes, witnesses or links to is later than it by over `clock_skew_millis`.
    DependencyTimeTooFarInFuture {
        /// The dependency, or the target of an indirect link.
        id: PointId,
    },
    /// 12: a dependency has a newer anchor of a role than the point's own link leads to.
    NewerAnchorInDependency {
        /// The link's role.
        role: AnchorStageRole,
        /// The dependency.
        id: PointId,
    },
    /// 13: a link leads to a dependency that is not of the link's role.
    AnchorLink {
        /// The link's role.
        role: AnchorStageRole,
        /// The dependency.
        id: PointId,
    },
    /// 14: an indirect link leads to a point that is not of the link's role.
    AnchorLinkRole {
        /// The link's role.
        role: AnchorStageRole,
        /// The link's target.
        id: PointId,
    },
    /// 15: a link goes through a dependency whose newest anchor of that role is not the link's target.
    AnchorLinkBadPath {
        /// The link's role.
        role: AnchorStageRole,
        /// The dependency.
        id: PointId,
    },
    /// 16: its seq_no is not one more than that of the previous point.
    BadStickySequence {
        /// The previous point.
        id: PointId,
        /// The previous point's seq_no, if it has one.
        prev_seq_no: Option<u8>,
        /// The point's own.
        seq_no: u8,
    },
    /// 17: the newest anchor proof of its trigger link's source or target is not its proof link's target, nor older.
    TriggerProofMismatch {
        /// The source or the target.
        id: PointId,
        /// Whether it is the target.
        is_target: bool,
    },
    /// 18: a point that it includes, witnesses or links to is ill-formed.
    DepIllFormed {
        /// The dependency, or the target of an indirect link.
        id: PointId,
        /// The number of its [`IllFormedReason`](crate::IllFormedReason), 1 to 16.
        reason: u8,
    },
    /// 19: a point that it includes, witnesses or links to was not found.
    DepNotFound {
        /// The dependency, or the target of an indirect link.
        id: PointId,
    },
}

/// The root cause of a trans-invalid point.
#[derive(Clone, Copy, PartialEq, Eq, Debug)]
pub struct InvalidDependency {
    /// The root cause, and the dependency that it came through.
    pub link: IndirectLink,
    /// The number of its [`InvalidReason`], 1 to 20.
    pub reason: u8,
}

impl InvalidDependency {
    /// Of two records the one that judging keeps, where entries of the first come before those of the second: the first
    /// stays unless the second is newer, by the rule of the source's `dependency`. So a host that judges a long list in two
    /// halves gets the whole list's record, if no entry is dropped or gives a reason. The order counts: of two root
    /// causes of one round, neither newer than the other, the first stays.
    ///
    /// ```
    /// use wutherdish::{Digest, IndirectLink, InvalidDependency, PeerId, PointId, Through};
    ///
    /// let root = |round, byte| {
    ///     let author = PeerId([byte; 32]);
    ///     let to = PointId { round, digest: Digest([byte; 32]), author };
    ///     InvalidDependency { link: IndirectLink { to, through: Through::Includes(author) }, reason: 8 }
    /// };
    /// let [old, one, other] = [root(11, 1), root(12, 2), root(12, 3)];
    /// assert_eq!(InvalidDependency::join(Some(old), Some(one)), Some(one));
    /// assert_eq!(InvalidDependency::join(Some(one), Some(old)), Some(one));
    /// assert_eq!(InvalidDependency::join(Some(one), None), Some(one));
    /// assert_eq!(InvalidDependency::join(Some(one), Some(other)), Some(one));
    /// assert_eq!(InvalidDependency::join(Some(other), Some(one)), Some(other));
    /// ```
    pub fn join(first: Option<Self>, second: Option<Self>) -> Option<Self> {
        match (first, second) {
            (Some(old), Some(new)) if !new.is_newer_than(&old) => Some(old),
            (old, None) => old,
            (_, new) => new,
        }
    }

    fn is_newer_than(&self, old: &Self) -> bool {
        let (new_round, old_round) = (self.link.to.round, old.link.to.round);
        old_round < new_round || (old_round == new_round && !old.has_dag_round() && self.has_dag_round())
    }

    /// "Reason numbers 2, 3 and 20 have no DAG round."
    fn has_dag_round(&self) -> bool {
        !matches!(self.reason, 2 | 3 | 20)
    }
}

impl InvalidReason {
    /// Document 01's number: the place of the variant as the source declares it.
    pub fn number(&self) -> u8 {
        match self {
            Self::NoRoundInDag { .. } => 2,
            Self::DependencyRoundDropped => 3,
            Self::NotTrigger { .. } => 4,
            Self::TerminalTriggerBeforeLastProof { .. } => 5,
            Self::TimeNotGreaterThanInPrevPoint { .. } => 6,
            Self::AnchorProofDoesntInheritAnchorTime { .. } => 7,
            Self::AnchorTimeNotInheritedFromProof { .. } => 8,
            Self::MustHaveReferencedPrevPoint { .. } => 9,
            Self::MustHaveSkippedRound { .. } => 10,
            Self::DependencyTimeTooFarInFuture { .. } => 11,
            Self::NewerAnchorInDependency { .. } => 12,
            Self::AnchorLink { .. } => 13,
            Self::AnchorLinkRole { .. } => 14,
            Self::AnchorLinkBadPath { .. } => 15,
            Self::BadStickySequence { .. } => 16,
            Self::TriggerProofMismatch { .. } => 17,
            Self::DepIllFormed { .. } => 18,
            Self::DepNotFound { .. } => 19,
        }
    }

    /// The point that it names.
    pub fn id(&self) -> Option<PointId> {
        match self {
            Self::NoRoundInDag { .. } | Self::DependencyRoundDropped => None,
            Self::NotTrigger { id }
            | Self::TerminalTriggerBeforeLastProof { id }
            | Self::TimeNotGreaterThanInPrevPoint { id }
            | Self::AnchorProofDoesntInheritAnchorTime { id }
            | Self::AnchorTimeNotInheritedFromProof { id }
            | Self::MustHaveReferencedPrevPoint { id }
            | Self::MustHaveSkippedRound { id }
            | Self::DependencyTimeTooFarInFuture { id }
            | Self::NewerAnchorInDependency { id, .. }
            | Self::AnchorLink { id, .. }
            | Self::AnchorLinkRole { id, .. }
            | Self::AnchorLinkBadPath { id, .. }
            | Self::BadStickySequence { id, .. }
            | Self::TriggerProofMismatch { id, .. }
            | Self::DepIllFormed { id, .. }
            | Self::DepNotFound { id } => Some(*id),
        }
    }
}
