//! What the numbers and the 114 bytes of a call mean.

mod invalid;

use crate::id::PeerId;
use crate::lent::ANSWER;
use crate::reasons::{
    AnchorStageRole, IllFormedReason, PeerCount, PointMap, StructureIssue, UninitVset, Verdict, Verified, VerifyError,
};

impl Verified {
    /// What an answer of verifying says, with the unknown peers at the front of the peer buffer; none where the bytes
    /// are no such answer.
    pub fn read(answer: &[u8; ANSWER], peers: &[u8]) -> Option<Self> {
        Some(match answer[0] {
            5 => Self::Passed,
            4 => Self::Failed(VerifyError::Fail(uninit_vset(answer)?)),
            3 => Self::Failed(VerifyError::IllFormed(ill_formed(answer, peers)?)),
            _ => return None,
        })
    }
}

impl Verdict {
    /// What an answer of judging says, likewise.
    pub fn read(answer: &[u8; ANSWER], peers: &[u8]) -> Option<Self> {
        Some(match answer[0] {
            4 => Self::Fail(uninit_vset(answer)?),
            3 => Self::IllFormed(ill_formed(answer, peers)?),
            2 => Self::Invalid(invalid::reason(answer)?),
            1 => Self::TransInvalid(invalid::dependency(answer)?),
            0 => Self::Valid,
            _ => return None,
        })
    }
}

fn uninit_vset(answer: &[u8; ANSWER]) -> Option<UninitVset> {
    Some(UninitVset { len: first(answer), round: second(answer), map: map(answer)? })
}

fn ill_formed(answer: &[u8; ANSWER], peers: &[u8]) -> Option<IllFormedReason> {
    Some(match answer[1] {
        3 => IllFormedReason::BeforeGenesis,
        4 => IllFormedReason::UnknownAuthor,
        5 => IllFormedReason::FalseGenesis,
        6 => IllFormedReason::TooLargePayload { bytes: first(answer) },
        7 => IllFormedReason::Structure(structure(answer)?),
        8 => IllFormedReason::TooManyStickyAnchors { seq_no: first(answer).try_into().ok()? },
        9 => IllFormedReason::BadLastStickyFlag,
        10 => IllFormedReason::LinksAcrossGenesis,
        11 => IllFormedReason::MustBeEmpty { map: map(answer)? },
        12 => {
            let (rows, _) = peers.as_chunks();
            let unknown = rows.get(..usize::from(answer[113]))?;
            IllFormedReason::UnknownPeers { peers: unknown.iter().copied().map(PeerId).collect(), map: map(answer)? }
        }
        13 => IllFormedReason::UnknownPeerInAnchorLink { role: role(answer)? },
        14 => {
            let peer_count = PeerCount(second(answer).try_into().ok()?);
            IllFormedReason::LackOfPeers { len: first(answer), peer_count, map: map(answer)? }
        }
        15 => IllFormedReason::NotRegular,
        16 => IllFormedReason::BadWaveLink { is_leader: flag(first(answer))? },
        _ => return None,
    })
}

fn structure(answer: &[u8; ANSWER]) -> Option<StructureIssue> {
    Some(match first(answer) {
        1 => StructureIssue::ExpectedGenesis { expected: flag(second(answer))? },
        2 => StructureIssue::BadGenesisPrevPoint,
        3 => StructureIssue::AuthorInMap { map: map(answer)? },
        4 => StructureIssue::TriggerBadProofLink,
        5 => StructureIssue::Link { role: role(answer)?, map: map(answer)? },
        6 => StructureIssue::AnchorTime,
        7 => StructureIssue::NoPrevPoint,
        _ => return None,
    })
}

fn map(answer: &[u8; ANSWER]) -> Option<PointMap> {
    Some(match answer[70] {
        0 => PointMap::Evidence,
        1 => PointMap::Includes,
        2 => PointMap::Witness,
        _ => return None,
    })
}

fn role(answer: &[u8; ANSWER]) -> Option<AnchorStageRole> {
    Some(match answer[71] {
        0 => AnchorStageRole::Proof,
        1 => AnchorStageRole::Trigger,
        _ => return None,
    })
}

fn flag(number: u32) -> Option<bool> {
    match number {
        0 => Some(false),
        1 => Some(true),
        _ => None,
    }
}

fn first(answer: &[u8; ANSWER]) -> u32 {
    u32::from_le_bytes([answer[72], answer[73], answer[74], answer[75]])
}

fn second(answer: &[u8; ANSWER]) -> u32 {
    u32::from_le_bytes([answer[76], answer[77], answer[78], answer[79]])
}

#[cfg(test)]
mod tests {
    use super::*;
    use AnchorStageRole::{Proof, Trigger};
    use PointMap::{Evidence, Includes, Witness};

    pub const NONE: u8 = 255;

    /// Kind, reason, map, role, first and second number, laid out.
    pub fn laid_out(kind: u8, reason: u8, map: u8, role: u8, first: u32, second: u32) -> [u8; ANSWER] {
        let mut answer = [0; ANSWER];
        (answer[0], answer[1], answer[70], answer[71]) = (kind, reason, map, role);
        answer[72..76].copy_from_slice(&first.to_le_bytes());
        answer[76..80].copy_from_slice(&second.to_le_bytes());
        answer
    }

    fn assert_ill_formed(answer: &[u8; ANSWER], reason: IllFormedReason) {
        assert_eq!(reason.number(), answer[1]);
        assert_eq!(Verified::read(answer, &[]), Some(Verified::Failed(VerifyError::IllFormed(reason.clone()))));
        assert_eq!(Verdict::read(answer, &[]), Some(Verdict::IllFormed(reason)));
    }

    #[test]
    fn passed_valid_and_fail() {
        assert_eq!(Verified::read(&laid_out(5, 0, NONE, NONE, 0, 0), &[]), Some(Verified::Passed));
        assert_eq!(Verdict::read(&laid_out(0, 0, NONE, NONE, 0, 0), &[]), Some(Verdict::Valid));
        let vset = UninitVset { len: 2, round: 70_000, map: Witness };
        let fail = laid_out(4, 0, 2, NONE, 2, 70_000);
        assert_eq!(Verified::read(&fail, &[]), Some(Verified::Failed(VerifyError::Fail(vset))));
        assert_eq!(Verdict::read(&fail, &[]), Some(Verdict::Fail(vset)));
    }

    #[test]
    fn reasons_that_carry_nothing() {
        let reasons = [
            IllFormedReason::BeforeGenesis,
            IllFormedReason::UnknownAuthor,
            IllFormedReason::FalseGenesis,
            IllFormedReason::BadLastStickyFlag,
            IllFormedReason::LinksAcrossGenesis,
            IllFormedReason::NotRegular,
        ];
        for reason in reasons {
            assert_ill_formed(&laid_out(3, reason.number(), NONE, NONE, 0, 0), reason);
        }
    }

    #[test]
    fn reasons_with_numbers_maps_and_roles() {
        assert_ill_formed(
            &laid_out(3, 6, NONE, NONE, u32::MAX, 0),
            IllFormedReason::TooLargePayload { bytes: u32::MAX },
        );
        assert_ill_formed(&laid_out(3, 8, NONE, NONE, 255, 0), IllFormedReason::TooManyStickyAnchors { seq_no: 255 });
        assert_ill_formed(&laid_out(3, 11, 0, NONE, 0, 0), IllFormedReason::MustBeEmpty { map: Evidence });
        assert_ill_formed(&laid_out(3, 13, NONE, 1, 0, 0), IllFormedReason::UnknownPeerInAnchorLink { role: Trigger });
        let lack = IllFormedReason::LackOfPeers { len: 169, peer_count: PeerCount(85), map: Includes };
        assert_ill_formed(&laid_out(3, 14, 1, NONE, 169, 85), lack);
        assert_ill_formed(&laid_out(3, 16, NONE, NONE, 1, 0), IllFormedReason::BadWaveLink { is_leader: true });
    }

    #[test]
    fn structure_issues() {
        let structure = |map, role, first, second| laid_out(3, 7, map, role, first, second);
        let issues = [
            (structure(NONE, NONE, 1, 1), StructureIssue::ExpectedGenesis { expected: true }),
            (structure(NONE, NONE, 1, 0), StructureIssue::ExpectedGenesis { expected: false }),
            (structure(NONE, NONE, 2, 0), StructureIssue::BadGenesisPrevPoint),
            (structure(2, NONE, 3, 0), StructureIssue::AuthorInMap { map: Witness }),
            (structure(NONE, NONE, 4, 0), StructureIssue::TriggerBadProofLink),
            (structure(1, 0, 5, 0), StructureIssue::Link { role: Proof, map: Includes }),
            (structure(NONE, NONE, 6, 0), StructureIssue::AnchorTime),
            (structure(NONE, NONE, 7, 0), StructureIssue::NoPrevPoint),
        ];
        for (answer, issue) in issues {
            assert_ill_formed(&answer, IllFormedReason::Structure(issue));
        }
    }

    #[test]
    fn unknown_peers_are_the_buffers_first_rows() {
        let mut answer = laid_out(3, 12, 1, NONE, 0, 0);
        answer[113] = 2;
        let buffer = [[1; 32], [2; 32], [3; 32]].concat();
        let peers = vec![PeerId([1; 32]), PeerId([2; 32])];
        let reason = IllFormedReason::UnknownPeers { peers, map: Includes };
        assert_eq!(Verified::read(&answer, &buffer), Some(Verified::Failed(VerifyError::IllFormed(reason))));
        assert_eq!(Verified::read(&answer, &buffer[..63]), None);
    }

    #[test]
    fn other_bytes_are_no_answer() {
        for kind in [0, 1, 2, 6] {
            assert_eq!(Verified::read(&laid_out(kind, 0, NONE, NONE, 0, 0), &[]), None);
        }
        for kind in [1, 2, 5, 6] {
            assert_eq!(Verdict::read(&laid_out(kind, 0, NONE, NONE, 0, 0), &[]), None);
        }
        assert_eq!(Verified::read(&laid_out(3, 17, NONE, NONE, 0, 0), &[]), None);
        assert_eq!(Verified::read(&laid_out(3, 11, NONE, NONE, 0, 0), &[]), None);
        assert_eq!(Verified::read(&laid_out(3, 7, NONE, NONE, 8, 0), &[]), None);
    }
}
