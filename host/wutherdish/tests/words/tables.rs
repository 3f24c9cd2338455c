//! Every reason, with words that its text has.

use wutherdish::AnchorStageRole::{Proof, Trigger};
use wutherdish::PointMap::{Evidence, Includes, Witness};
use wutherdish::{Digest, IllFormedReason, InvalidReason, PeerCount, PeerId, PointId, StructureIssue};

pub const ID: PointId = PointId { round: 70_123, digest: Digest([0x1a; 32]), author: PeerId([0x0b; 32]) };
pub const PEER: PeerId = PeerId([0xc7; 32]);

/// Every case of IllFormedReason.
pub fn ill_formed() -> Vec<(IllFormedReason, Vec<&'static str>)> {
    use IllFormedReason::*;
    let lack = |map, len| LackOfPeers { len, peer_count: PeerCount(21), map };
    vec![
        (BeforeGenesis, vec!["genesis"]),
        (UnknownAuthor, vec!["author"]),
        (FalseGenesis, vec!["digest"]),
        (TooLargePayload { bytes: 4_711 }, vec!["4711 bytes"]),
        (Structure(StructureIssue::AnchorTime), vec!["anchor time"]),
        (TooManyStickyAnchors { seq_no: 17 }, vec!["17"]),
        (BadLastStickyFlag, vec!["is_last"]),
        (LinksAcrossGenesis, vec!["link", "genesis"]),
        (MustBeEmpty { map: Evidence }, vec!["evidence"]),
        (MustBeEmpty { map: Witness }, vec!["witness"]),
        (UnknownPeers { peers: vec![PEER; 2], map: Includes }, vec!["includes", "c7c7c7c7.., c7c7c7c7.."]),
        (UnknownPeers { peers: vec![PEER; 99], map: Witness }, vec!["witness", "c7c7c7c7.. and 91 more"]),
        (UnknownPeerInAnchorLink { role: Trigger }, vec!["trigger link"]),
        (lack(Evidence, 41), vec!["evidence", "41", "needs 42"]),
        (lack(Includes, 42), vec!["includes", "42", "needs 43"]),
        (NotRegular, vec!["regular"]),
        (BadWaveLink { is_leader: true }, vec!["author leads"]),
        (BadWaveLink { is_leader: false }, vec!["does not lead"]),
    ]
}

/// Every case of StructureIssue.
pub fn issues() -> Vec<(StructureIssue, Vec<&'static str>)> {
    use StructureIssue::*;
    vec![
        (ExpectedGenesis { expected: true }, vec!["role is not genesis"]),
        (ExpectedGenesis { expected: false }, vec!["role is genesis"]),
        (BadGenesisPrevPoint, vec!["zeros"]),
        (AuthorInMap { map: Evidence }, vec!["evidence"]),
        (AuthorInMap { map: Includes }, vec!["includes", "evidence"]),
        (AuthorInMap { map: Witness }, vec!["witness"]),
        (TriggerBadProofLink, vec!["proof link"]),
        (Link { role: Proof, map: Includes }, vec!["proof link", "includes"]),
        (Link { role: Trigger, map: Witness }, vec!["trigger link", "witness"]),
        (AnchorTime, vec!["anchor time"]),
        (NoPrevPoint, vec!["previous point"]),
    ]
}

/// Every case of InvalidReason.
pub fn invalid() -> Vec<(InvalidReason, Vec<&'static str>)> {
    use InvalidReason::*;
    let id = ID;
    vec![
        (NoRoundInDag { map: Evidence }, vec!["its own round"]),
        (NoRoundInDag { map: Includes }, vec!["includes"]),
        (NoRoundInDag { map: Witness }, vec!["witness"]),
        (DependencyRoundDropped, vec!["dropped"]),
        (NotTrigger { id }, vec!["trigger"]),
        (TerminalTriggerBeforeLastProof { id }, vec!["last"]),
        (TimeNotGreaterThanInPrevPoint { id }, vec!["time", "previous point"]),
        (AnchorProofDoesntInheritAnchorTime { id }, vec!["anchor time", "previous point"]),
        (AnchorTimeNotInheritedFromProof { id }, vec!["anchor time", "proof link"]),
        (MustHaveReferencedPrevPoint { id }, vec!["first valid", "certified"]),
        (MustHaveSkippedRound { id }, vec!["skip"]),
        (DependencyTimeTooFarInFuture { id }, vec!["clock_skew_millis"]),
        (NewerAnchorInDependency { role: Proof, id }, vec!["newer anchor proof"]),
        (AnchorLink { role: Trigger, id }, vec!["trigger link", "includes or witnesses"]),
        (AnchorLinkRole { role: Proof, id }, vec!["indirect proof link"]),
        (AnchorLinkBadPath { role: Trigger, id }, vec!["trigger link goes through"]),
        (BadStickySequence { id, prev_seq_no: Some(7), seq_no: 9 }, vec!["9 after 7"]),
        (BadStickySequence { id, prev_seq_no: None, seq_no: 9 }, vec!["9 after a point that has none"]),
        (TriggerProofMismatch { id, is_target: true }, vec!["leads to the point"]),
        (TriggerProofMismatch { id, is_target: false }, vec!["goes through the point"]),
        (DepIllFormed { id, reason: 5 }, vec!["FalseGenesis (5)"]),
        (DepNotFound { id }, vec!["not found"]),
    ]
}
