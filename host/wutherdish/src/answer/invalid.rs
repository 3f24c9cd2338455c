//! The answers of invalid and trans-invalid points.

use super::{first, flag, map, role, second};
use crate::id::{Digest, PeerId, PointId};
use crate::invalid::{InvalidDependency, InvalidReason};
use crate::lent::ANSWER;
use crate::link::{IndirectLink, Through};
use crate::reasons::PointMap;

pub fn reason(answer: &[u8; ANSWER]) -> Option<InvalidReason> {
    let id = id(answer);
    Some(match answer[1] {
        2 => InvalidReason::NoRoundInDag { map: map(answer)? },
        3 => InvalidReason::DependencyRoundDropped,
        4 => InvalidReason::NotTrigger { id },
        5 => InvalidReason::TerminalTriggerBeforeLastProof { id },
        6 => InvalidReason::TimeNotGreaterThanInPrevPoint { id },
        7 => InvalidReason::AnchorProofDoesntInheritAnchorTime { id },
        8 => InvalidReason::AnchorTimeNotInheritedFromProof { id },
        9 => InvalidReason::MustHaveReferencedPrevPoint { id },
        10 => InvalidReason::MustHaveSkippedRound { id },
        11 => InvalidReason::DependencyTimeTooFarInFuture { id },
        12 => InvalidReason::NewerAnchorInDependency { role: role(answer)?, id },
        13 => InvalidReason::AnchorLink { role: role(answer)?, id },
        14 => InvalidReason::AnchorLinkRole { role: role(answer)?, id },
        15 => InvalidReason::AnchorLinkBadPath { role: role(answer)?, id },
        16 => {
            let (prev_seq_no, seq_no) = (previous(answer)?, first(answer).try_into().ok()?);
            InvalidReason::BadStickySequence { id, prev_seq_no, seq_no }
        }
        17 => InvalidReason::TriggerProofMismatch { id, is_target: flag(first(answer))? },
        18 => InvalidReason::DepIllFormed { id, reason: first(answer).try_into().ok()? },
        19 => InvalidReason::DepNotFound { id },
        _ => return None,
    })
}

pub fn dependency(answer: &[u8; ANSWER]) -> Option<InvalidDependency> {
    let peer = PeerId(bytes::<81, 32>(answer));
    let through = match map(answer)? {
        PointMap::Evidence => return None,
        PointMap::Includes => Through::Includes(peer),
        PointMap::Witness => Through::Witness(peer),
    };
    Some(InvalidDependency { link: IndirectLink { to: id(answer), through }, reason: answer[80] })
}

fn id(answer: &[u8; ANSWER]) -> PointId {
    PointId {
        round: u32::from_le_bytes(bytes::<2, 4>(answer)),
        digest: Digest(bytes::<6, 32>(answer)),
        author: PeerId(bytes::<38, 32>(answer)),
    }
}

/// The previous seq_no, if there is one.
fn previous(answer: &[u8; ANSWER]) -> Option<Option<u8>> {
    match second(answer) {
        u32::MAX => Some(None),
        seq_no => seq_no.try_into().ok().map(Some),
    }
}

fn bytes<const AT: usize, const N: usize>(answer: &[u8; ANSWER]) -> [u8; N] {
    const { assert!(AT + N <= ANSWER) };
    std::array::from_fn(|place| answer[AT + place])
}

#[cfg(test)]
mod tests {
    use super::super::tests::{NONE, laid_out};
    use super::*;
    use crate::reasons::AnchorStageRole::{Proof, Trigger};
    use crate::reasons::PointMap::{Evidence, Includes, Witness};
    use crate::reasons::Verdict;

    const ID: PointId = PointId { round: 70_000, digest: Digest([3; 32]), author: PeerId([5; 32]) };

    /// With the id in its place.
    fn naming(mut answer: [u8; ANSWER]) -> [u8; ANSWER] {
        answer[2..6].copy_from_slice(&ID.round.to_le_bytes());
        answer[6..38].copy_from_slice(&ID.digest.0);
        answer[38..70].copy_from_slice(&ID.author.0);
        answer
    }

    fn assert_invalid(answer: &[u8; ANSWER], reason: InvalidReason) {
        assert_eq!(reason.number(), answer[1]);
        assert_eq!(Verdict::read(answer, &[]), Some(Verdict::Invalid(reason)));
    }

    #[test]
    fn reasons_that_name_no_point() {
        for (number, map) in [(0, Evidence), (1, Includes), (2, Witness)] {
            assert_invalid(&laid_out(2, 2, number, NONE, 0, 0), InvalidReason::NoRoundInDag { map });
        }
        assert_invalid(&laid_out(2, 3, NONE, NONE, 0, 0), InvalidReason::DependencyRoundDropped);
    }

    #[test]
    fn reasons_that_name_a_point_alone() {
        let reasons = [
            InvalidReason::NotTrigger { id: ID },
            InvalidReason::TerminalTriggerBeforeLastProof { id: ID },
            InvalidReason::TimeNotGreaterThanInPrevPoint { id: ID },
            InvalidReason::AnchorProofDoesntInheritAnchorTime { id: ID },
            InvalidReason::AnchorTimeNotInheritedFromProof { id: ID },
            InvalidReason::MustHaveReferencedPrevPoint { id: ID },
            InvalidReason::MustHaveSkippedRound { id: ID },
            InvalidReason::DependencyTimeTooFarInFuture { id: ID },
            InvalidReason::DepNotFound { id: ID },
        ];
        for reason in reasons {
            assert_invalid(&naming(laid_out(2, reason.number(), NONE, NONE, 0, 0)), reason);
        }
    }

    #[test]
    fn reasons_with_roles() {
        for (number, role) in [(0, Proof), (1, Trigger)] {
            let reasons = [
                InvalidReason::NewerAnchorInDependency { role, id: ID },
                InvalidReason::AnchorLink { role, id: ID },
                InvalidReason::AnchorLinkRole { role, id: ID },
                InvalidReason::AnchorLinkBadPath { role, id: ID },
            ];
            for reason in reasons {
                assert_invalid(&naming(laid_out(2, reason.number(), NONE, number, 0, 0)), reason);
            }
        }
    }

    #[test]
    fn reasons_with_numbers() {
        let invalid = |reason, first, second| naming(laid_out(2, reason, NONE, NONE, first, second));
        assert_invalid(
            &invalid(16, 4, 255),
            InvalidReason::BadStickySequence { id: ID, prev_seq_no: Some(255), seq_no: 4 },
        );
        assert_invalid(
            &invalid(16, 4, u32::MAX),
            InvalidReason::BadStickySequence { id: ID, prev_seq_no: None, seq_no: 4 },
        );
        assert_invalid(&invalid(17, 0, 0), InvalidReason::TriggerProofMismatch { id: ID, is_target: false });
        assert_invalid(&invalid(17, 1, 0), InvalidReason::TriggerProofMismatch { id: ID, is_target: true });
        assert_invalid(&invalid(18, 16, 0), InvalidReason::DepIllFormed { id: ID, reason: 16 });
    }

    #[test]
    fn root_causes() {
        let peer = PeerId([9; 32]);
        for (number, through) in [(1, Through::Includes(peer)), (2, Through::Witness(peer))] {
            let mut answer = naming(laid_out(1, 0, number, NONE, 0, 0));
            answer[80] = 20;
            answer[81..113].copy_from_slice(&peer.0);
            let dependency = InvalidDependency { link: IndirectLink { to: ID, through }, reason: 20 };
            assert_eq!(Verdict::read(&answer, &[]), Some(Verdict::TransInvalid(dependency)));
        }
    }

    #[test]
    fn other_bytes_are_no_answer() {
        let others = [
            laid_out(2, 1, NONE, NONE, 0, 0),
            laid_out(2, 20, NONE, NONE, 0, 0),
            laid_out(2, 2, NONE, NONE, 0, 0),
            laid_out(2, 12, NONE, NONE, 0, 0),
            laid_out(2, 16, NONE, NONE, 4, 256),
            laid_out(2, 17, NONE, NONE, 2, 0),
            laid_out(1, 0, 0, NONE, 0, 0),
        ];
        for answer in others {
            assert_eq!(Verdict::read(&answer, &[]), None);
        }
    }
}
