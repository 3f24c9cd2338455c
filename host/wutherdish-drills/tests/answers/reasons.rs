//! What the reasons carry: each drill shows the fault that it says, and none that stands before or after it.

use wutherdish::AnchorStageRole::{Proof, Trigger};
use wutherdish::{IllFormedReason, InvalidReason, PeerCount, PeerId, PointMap, StructureIssue, UninitVset, Verdict};

use crate::run::Feed;

fn last(name: &str) -> Verdict {
    Feed::of(name).answers().pop().expect("there is always one").expect("a verdict")
}

#[test]
fn fail_names_the_set() {
    assert_eq!(last("fail"), Verdict::Fail(UninitVset { len: 0, round: 11, map: PointMap::Evidence }));
}

#[test]
fn ill_formed_reasons() {
    let unknown = IllFormedReason::UnknownPeers { peers: vec![PeerId([0x0b; 32])], map: PointMap::Includes };
    let lack = IllFormedReason::LackOfPeers { len: 2, peer_count: PeerCount(1), map: PointMap::Includes };
    let reasons = [
        ("ill-formed-06", IllFormedReason::TooLargePayload { bytes: 1_001 }),
        ("ill-formed-08", IllFormedReason::TooManyStickyAnchors { seq_no: 2 }),
        ("ill-formed-11", IllFormedReason::MustBeEmpty { map: PointMap::Evidence }),
        ("ill-formed-12", unknown),
        ("ill-formed-13", IllFormedReason::UnknownPeerInAnchorLink { role: Proof }),
        ("ill-formed-14", lack),
        ("ill-formed-16", IllFormedReason::BadWaveLink { is_leader: true }),
    ];
    let issues = [
        ("ill-formed-07-expected-genesis", StructureIssue::ExpectedGenesis { expected: true }),
        ("ill-formed-07-author-in-map", StructureIssue::AuthorInMap { map: PointMap::Evidence }),
        ("ill-formed-07-link", StructureIssue::Link { role: Proof, map: PointMap::Includes }),
    ];
    let issues = issues.map(|(name, issue)| (name, IllFormedReason::Structure(issue)));
    for (name, reason) in reasons.into_iter().chain(issues) {
        assert_eq!(last(name), Verdict::IllFormed(reason), "{name}");
    }
}

/// The dependency that decides is the first offer; above a valid genesis point it may be the second.
#[test]
fn invalid_reasons() {
    let id = |name: &str, place| Feed::of(name).id(place);
    let first = |name: &str| id(name, 1);
    let reasons = [
        ("invalid-04", InvalidReason::NotTrigger { id: first("invalid-04") }),
        ("invalid-05", InvalidReason::TerminalTriggerBeforeLastProof { id: first("invalid-05") }),
        ("invalid-06", InvalidReason::TimeNotGreaterThanInPrevPoint { id: first("invalid-06") }),
        ("invalid-07", InvalidReason::AnchorProofDoesntInheritAnchorTime { id: first("invalid-07") }),
        ("invalid-08", InvalidReason::AnchorTimeNotInheritedFromProof { id: first("invalid-08") }),
        ("invalid-09", InvalidReason::MustHaveReferencedPrevPoint { id: id("invalid-09", 2) }),
        ("invalid-10", InvalidReason::MustHaveSkippedRound { id: first("invalid-10") }),
        ("invalid-11", InvalidReason::DependencyTimeTooFarInFuture { id: first("invalid-11") }),
        ("invalid-12", InvalidReason::NewerAnchorInDependency { role: Trigger, id: first("invalid-12") }),
        ("invalid-13", InvalidReason::AnchorLink { role: Trigger, id: first("invalid-13") }),
        ("invalid-14", InvalidReason::AnchorLinkRole { role: Trigger, id: first("invalid-14") }),
        ("invalid-15", InvalidReason::AnchorLinkBadPath { role: Proof, id: first("invalid-15") }),
        ("invalid-16", InvalidReason::BadStickySequence { id: first("invalid-16"), prev_seq_no: None, seq_no: 1 }),
        ("invalid-17", InvalidReason::TriggerProofMismatch { id: first("invalid-17"), is_target: true }),
        ("invalid-18", InvalidReason::DepIllFormed { id: first("invalid-18"), reason: 5 }),
    ];
    for (name, reason) in reasons {
        assert_eq!(last(name), Verdict::Invalid(reason), "{name}");
    }
}
