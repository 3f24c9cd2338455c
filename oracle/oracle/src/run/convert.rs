//! From what was read to the source's types, and from its answers back.

use std::num::{NonZeroU8, NonZeroU16, NonZeroU32};

use tycho::PeerId;
use tycho::dag::{IllFormedReason, InvalidDependency, InvalidReason, UninitVset, ValidateResult, VerifyError};
use tycho::engine::{ConsensusConfig, MempoolConfig};
use tycho::intercom::PeerScheduleStateless;
use tycho::intercom::peer_schedule::with_spans;
use tycho::models::point_status::{
    PointStatusIllFormed, PointStatusInvalid, PointStatusNotFound, PointStatusTransInvalid, PointStatusValid,
};
use tycho::models::{
    self, AnchorLink, Cert, DagPoint, Digest, EvidenceSigError, IndirectLink, PeerCount, PointData, PointId, PointInfo,
    PointMap, Round, Signature, StructureIssue, UnixTime,
};

use crate::answer::{
    EVIDENCE, FAIL, ILL_FORMED, INCLUDES, INVALID, PROOF, TRANS_INVALID, TRIGGER, VALID, Verdict, WITNESS,
};
use crate::value;

pub fn config(settings: &value::Settings) -> MempoolConfig {
    let limits = "settings are within limits";
    MempoolConfig {
        consensus: ConsensusConfig {
            payload_batch_bytes: NonZeroU32::new(settings.payload_batch_bytes).expect(limits),
            sticky_anchors: settings.sticky_anchors,
            clock_skew_millis: NonZeroU16::new(settings.clock_skew_millis).expect(limits),
            commit_history_rounds: NonZeroU8::new(settings.commit_history_rounds).expect(limits),
        },
        genesis_round: Round(settings.genesis_round),
        genesis_digest: digest(&settings.genesis_digest),
    }
}

pub fn schedule(schedule: &value::Schedule) -> PeerScheduleStateless {
    let span = |span: &value::Span| {
        let peers = span.peers.iter().zip(0..).map(|(peer, place)| (PeerId(*peer), place)).collect();
        (Round(span.first), peers)
    };
    let spans: Vec<_> = schedule.spans.iter().map(span).collect();
    with_spans(&spans, Round(schedule.last_known))
}

fn digest(bytes: &value::Digest) -> Digest {
    *Digest::wrap(bytes)
}

pub fn point_id(id: &value::Id) -> PointId {
    PointId { round: Round(id.round), digest: digest(&id.digest), author: PeerId(id.author) }
}

pub fn point_info(point: &value::Point) -> PointInfo {
    let pairs =
        |map: &[(value::Peer, value::Digest)]| map.iter().map(|(peer, named)| (PeerId(*peer), digest(named))).collect();
    let data = PointData {
        includes: pairs(&point.includes),
        witness: pairs(&point.witness),
        evidence: point.evidence.iter().map(|peer| (PeerId(*peer), Signature::none())).collect(),
        anchor_proof: link(&point.anchor_proof),
        anchor_trigger: link(&point.anchor_trigger),
        role: role(&point.role),
        time: UnixTime::from_millis(point.time),
        anchor_time: UnixTime::from_millis(point.anchor_time),
    };
    PointInfo::unsigned(point_id(&point.id), point.payload_len, point.payload_bytes, data)
}

pub fn link(link: &value::AnchorLink) -> AnchorLink {
    let peer = PeerId(link.peer);
    let through = match link.through {
        value::Through::Includes => models::Through::Includes(peer),
        value::Through::Witness => models::Through::Witness(peer),
    };
    match &link.to {
        None => AnchorLink::Direct(through),
        Some(to) => AnchorLink::Indirect(IndirectLink { to: point_id(to), through }),
    }
}

pub fn role(role: &value::PointRole) -> models::PointRole {
    match *role {
        value::PointRole::Regular => models::PointRole::Regular,
        value::PointRole::AnchorProof { seq_no, is_last } => models::PointRole::AnchorProof { seq_no, is_last },
        value::PointRole::AnchorTrigger => models::PointRole::AnchorTrigger,
        value::PointRole::Genesis => models::PointRole::Genesis,
    }
}

/// An entry as the DAG resolves it; `None` is dropped.
pub fn dag_point(entry: &value::Entry, cert: &Cert) -> Option<DagPoint> {
    let cert = cert.clone();
    let unresolved = false;
    Some(match &entry.state {
        value::State::Valid(point) => {
            let status = PointStatusValid { is_first_valid: entry.first_valid, is_first_resolved: unresolved };
            DagPoint::new_valid(point_info(point), cert, &status)
        }
        value::State::TransInvalid(point, root, reason) => {
            let link = IndirectLink { to: point_id(root), through: models::Through::Includes(PeerId(root.author)) };
            let root_cause = InvalidDependency { link, reason: invalid_reason(*reason, root) };
            DagPoint::new_trans_invalid(point_info(point), cert, &PointStatusTransInvalid::default(), root_cause)
        }
        value::State::Invalid(point, reason) => {
            let reason = invalid_reason(*reason, &point.id);
            DagPoint::new_invalid(point_info(point), cert, &PointStatusInvalid::default(), reason)
        }
        value::State::IllFormed(id, reason) => {
            let reason = ill_formed_reason(*reason);
            DagPoint::new_ill_formed(point_id(id), cert, &PointStatusIllFormed::default(), reason)
        }
        value::State::NotFound(id) => DagPoint::new_not_found(point_id(id), cert, &PointStatusNotFound::default()),
        value::State::Dropped => return None,
    })
}

/// The variant with this number. Document 01 carries a dependency's reason by number only, so that what the
/// variant names is filled with anything.
fn ill_formed_reason(number: u8) -> IllFormedReason {
    use IllFormedReason as Reason;
    let map = PointMap::Includes;
    match number {
        1 => Reason::AfterLoadFromDb { is_final: false },
        2 => Reason::EvidenceSigError(EvidenceSigError),
        3 => Reason::BeforeGenesis,
        4 => Reason::UnknownAuthor,
        5 => Reason::FalseGenesis,
        6 => Reason::TooLargePayload(0),
        7 => Reason::Structure(StructureIssue::AnchorTime),
        8 => Reason::TooManyStickyAnchors(0),
        9 => Reason::BadLastStickyFlag,
        10 => Reason::LinksAcrossGenesis,
        11 => Reason::MustBeEmpty(map),
        12 => Reason::UnknownPeers((Vec::new(), map)),
        13 => Reason::UnknownPeerInAnchorLink(models::AnchorStageRole::Proof),
        14 => Reason::LackOfPeers((0, PeerCount::GENESIS, map)),
        15 => Reason::NotRegular,
        16 => Reason::BadWaveLink(false),
        _ => unreachable!("the reader lets 1 to 16 through"),
    }
}

fn ill_formed_number(reason: &IllFormedReason) -> u8 {
    use IllFormedReason as Reason;
    match reason {
        Reason::AfterLoadFromDb { .. } => 1,
        Reason::EvidenceSigError(_) => 2,
        Reason::BeforeGenesis => 3,
        Reason::UnknownAuthor => 4,
        Reason::FalseGenesis => 5,
        Reason::TooLargePayload(_) => 6,
        Reason::Structure(_) => 7,
        Reason::TooManyStickyAnchors(_) => 8,
        Reason::BadLastStickyFlag => 9,
        Reason::LinksAcrossGenesis => 10,
        Reason::MustBeEmpty(_) => 11,
        Reason::UnknownPeers(_) => 12,
        Reason::UnknownPeerInAnchorLink(_) => 13,
        Reason::LackOfPeers(_) => 14,
        Reason::NotRegular => 15,
        Reason::BadWaveLink(_) => 16,
    }
}

/// See `ill_formed_reason`.
fn invalid_reason(number: u8, id: &value::Id) -> InvalidReason {
    use InvalidReason as Reason;
    let id = point_id(id);
    let role = models::AnchorStageRole::Proof;
    match number {
        1 => Reason::AfterLoadFromDb { has_dag_round: true },
        2 => Reason::NoRoundInDag(PointMap::Includes),
        3 => Reason::DependencyRoundDropped,
        4 => Reason::NotTrigger(id),
        5 => Reason::TerminalTriggerBeforeLastProof(id),
        6 => Reason::TimeNotGreaterThanInPrevPoint(id),
        7 => Reason::AnchorProofDoesntInheritAnchorTime(id),
        8 => Reason::AnchorTimeNotInheritedFromProof(id),
        9 => Reason::MustHaveReferencedPrevPoint(id),
        10 => Reason::MustHaveSkippedRound(id),
        11 => Reason::DependencyTimeTooFarInFuture(id),
        12 => Reason::NewerAnchorInDependency((role, id)),
        13 => Reason::AnchorLink((role, id)),
        14 => Reason::AnchorLinkRole((role, id)),
        15 => Reason::AnchorLinkBadPath((role, id)),
        16 => Reason::BadStickySequence((id, None, 0)),
        17 => Reason::TriggerProofMismatch((id, false)),
        18 => Reason::DepIllFormed((id, ill_formed_reason(1))),
        19 => Reason::DepNotFound(id),
        20 => Reason::AfterLoadFromDb { has_dag_round: false },
        _ => unreachable!("the reader lets 1 to 20 through"),
    }
}

pub fn verify_error(error: &VerifyError) -> Verdict {
    match error {
        VerifyError::Fail(UninitVset((count, round, map))) => {
            Verdict { map: map_number(*map), first: *count as u32, second: round.0, ..Verdict::new(FAIL, 0) }
        }
        VerifyError::IllFormed(reason) => ill_formed(reason),
    }
}

pub fn validated(result: &ValidateResult) -> Verdict {
    match result {
        ValidateResult::Valid => Verdict::new(VALID, 0),
        ValidateResult::IllFormed(reason) => ill_formed(reason),
        ValidateResult::Invalid(reason) => invalid(reason),
        ValidateResult::TransInvalid(dependency) => trans_invalid(dependency),
    }
}

fn ill_formed(reason: &IllFormedReason) -> Verdict {
    use IllFormedReason as Reason;
    let mut verdict = Verdict::new(ILL_FORMED, ill_formed_number(reason));
    match reason {
        Reason::TooLargePayload(bytes) => verdict.first = *bytes,
        Reason::Structure(issue) => structure(*issue, &mut verdict),
        Reason::TooManyStickyAnchors(seq_no) => verdict.first = u32::from(*seq_no),
        Reason::MustBeEmpty(map) => verdict.map = map_number(*map),
        Reason::UnknownPeers((peers, map)) => {
            verdict.map = map_number(*map);
            verdict.unknown = peers.iter().map(|peer| peer.0).collect();
            verdict.unknown.sort_unstable();
        }
        Reason::UnknownPeerInAnchorLink(role) => verdict.role = role_number(*role),
        Reason::LackOfPeers((length, count, map)) => {
            verdict.first = *length as u32;
            verdict.second = ((count.full() - 1) / 3) as u32;
            verdict.map = map_number(*map);
        }
        Reason::BadWaveLink(leader) => verdict.first = u32::from(*leader),
        _ => {}
    }
    verdict
}

fn structure(issue: StructureIssue, verdict: &mut Verdict) {
    verdict.first = match issue {
        StructureIssue::ExpectedGenesis(_) => 1,
        StructureIssue::BadGenesisPrevPoint => 2,
        StructureIssue::AuthorInMap(_) => 3,
        StructureIssue::TriggerBadProofLink => 4,
        StructureIssue::Link(..) => 5,
        StructureIssue::AnchorTime => 6,
        StructureIssue::NoPrevPoint => 7,
    };
    match issue {
        StructureIssue::ExpectedGenesis(expected) => verdict.second = u32::from(expected),
        StructureIssue::AuthorInMap(map) => verdict.map = map_number(map),
        StructureIssue::Link(role, map) => {
            verdict.role = role_number(role);
            verdict.map = map_number(map);
        }
        _ => {}
    }
}

pub fn invalid(reason: &InvalidReason) -> Verdict {
    use InvalidReason as Reason;
    let mut verdict = Verdict::new(INVALID, invalid_number(reason));
    let id = match reason {
        Reason::AfterLoadFromDb { .. } | Reason::DependencyRoundDropped => return verdict,
        Reason::NoRoundInDag(map) => {
            verdict.map = map_number(*map);
            return verdict;
        }
        Reason::NotTrigger(id)
        | Reason::TerminalTriggerBeforeLastProof(id)
        | Reason::TimeNotGreaterThanInPrevPoint(id)
        | Reason::AnchorProofDoesntInheritAnchorTime(id)
        | Reason::AnchorTimeNotInheritedFromProof(id)
        | Reason::MustHaveReferencedPrevPoint(id)
        | Reason::MustHaveSkippedRound(id)
        | Reason::DependencyTimeTooFarInFuture(id)
        | Reason::DepNotFound(id) => id,
        Reason::NewerAnchorInDependency((role, id))
        | Reason::AnchorLink((role, id))
        | Reason::AnchorLinkRole((role, id))
        | Reason::AnchorLinkBadPath((role, id)) => {
            verdict.role = role_number(*role);
            id
        }
        Reason::BadStickySequence((id, previous, seq_no)) => {
            verdict.first = u32::from(*seq_no);
            verdict.second = previous.map_or(u32::MAX, u32::from);
            id
        }
        Reason::TriggerProofMismatch((id, is_target)) => {
            verdict.first = u32::from(*is_target);
            id
        }
        Reason::DepIllFormed((id, reason)) => {
            verdict.first = u32::from(ill_formed_number(reason));
            id
        }
    };
    verdict.id = Some(id_back(id));
    verdict
}

fn invalid_number(reason: &InvalidReason) -> u8 {
    use InvalidReason as Reason;
    match reason {
        Reason::AfterLoadFromDb { has_dag_round: true } => 1,
        Reason::NoRoundInDag(_) => 2,
        Reason::DependencyRoundDropped => 3,
        Reason::NotTrigger(_) => 4,
        Reason::TerminalTriggerBeforeLastProof(_) => 5,
        Reason::TimeNotGreaterThanInPrevPoint(_) => 6,
        Reason::AnchorProofDoesntInheritAnchorTime(_) => 7,
        Reason::AnchorTimeNotInheritedFromProof(_) => 8,
        Reason::MustHaveReferencedPrevPoint(_) => 9,
        Reason::MustHaveSkippedRound(_) => 10,
        Reason::DependencyTimeTooFarInFuture(_) => 11,
        Reason::NewerAnchorInDependency(_) => 12,
        Reason::AnchorLink(_) => 13,
        Reason::AnchorLinkRole(_) => 14,
        Reason::AnchorLinkBadPath(_) => 15,
        Reason::BadStickySequence(_) => 16,
        Reason::TriggerProofMismatch(_) => 17,
        Reason::DepIllFormed(_) => 18,
        Reason::DepNotFound(_) => 19,
        Reason::AfterLoadFromDb { has_dag_round: false } => 20,
    }
}

fn trans_invalid(dependency: &InvalidDependency) -> Verdict {
    let (map, peer) = match &dependency.link.through {
        models::Through::Includes(peer) => (INCLUDES, peer),
        models::Through::Witness(peer) => (WITNESS, peer),
    };
    Verdict {
        id: Some(id_back(&dependency.link.to)),
        map,
        root_reason: invalid_number(&dependency.reason),
        peer: Some(peer.0),
        ..Verdict::new(TRANS_INVALID, 0)
    }
}

fn id_back(id: &PointId) -> value::Id {
    value::Id { round: id.round.0, digest: *id.digest.inner(), author: id.author.0 }
}

fn map_number(map: PointMap) -> u8 {
    match map {
        PointMap::Evidence => EVIDENCE,
        PointMap::Includes => INCLUDES,
        PointMap::Witness => WITNESS,
    }
}

fn role_number(role: models::AnchorStageRole) -> u8 {
    match role {
        models::AnchorStageRole::Proof => PROOF,
        models::AnchorStageRole::Trigger => TRIGGER,
    }
}
