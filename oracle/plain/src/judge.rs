//! `Verifier::validate`.

use oracle::Verdict;
use oracle::answer::{EVIDENCE, INCLUDES, INVALID, TRANS_INVALID, VALID, WITNESS};
use oracle::numbers::{HORIZON, is_version, split};
use oracle::row::{DIRECT, INDIRECT, NO_LIST, Row, row};
use oracle::value::{AnchorStageRole, Entry, Id, Peer, Point, PointRole, State, Through};

use crate::anchor::{is_proof, sequence, source, target};
use crate::verify::{ill_formed, role_number};
use crate::{Judged, Mistake, Refused, Rules};

use AnchorStageRole::{Proof, Trigger};

/// The root cause that is recorded, and how it came.
struct Record {
    id: Id,
    reason: u8,
    map: u8,
    peer: Peer,
}

/// What judging knows so far.
#[derive(Default)]
struct Found {
    reason: Option<Verdict>,
    record: Option<Record>,
    first_stays: bool,
    /// The entry that is judged: its list, and its place there.
    entry: (u8, usize),
    rows: Vec<Row>,
}

impl Found {
    fn set(&mut self, verdict: Verdict) {
        let (list, place) = self.entry;
        self.rows.push(row(list, place, verdict.reason, verdict.role));
        if !(self.first_stays && self.reason.is_some()) {
            self.reason = Some(verdict);
        }
    }
}

fn invalid(reason: u8) -> Verdict {
    Verdict::new(INVALID, reason)
}

fn named(reason: u8, id: Id) -> Verdict {
    Verdict { id: Some(id), ..invalid(reason) }
}

fn of_role(reason: u8, role: AnchorStageRole, id: Id) -> Verdict {
    Verdict { role: role_number(role), ..named(reason, id) }
}

fn no_round(map: u8) -> Verdict {
    Verdict { map, ..invalid(2) }
}

/// The row of a presence rule's reason.
fn rule_row(verdict: &Verdict) -> Vec<Row> {
    vec![row(NO_LIST, 0, verdict.reason, verdict.role)]
}

impl Rules<'_> {
    /// The verdict, and the rows of its trail.
    pub(crate) fn judge(&self, judged: &Judged) -> Result<(Verdict, Vec<Row>), Refused> {
        let round = self.read.point.id.round;
        let at_genesis = round == self.read.settings.genesis_round;
        if self.made(Mistake::HorizonFirst) && !at_genesis {
            self.check_horizon()?;
        }
        self.verify().map_err(Refused::Verdict)?;
        if at_genesis {
            return Ok((Verdict::new(VALID, 0), Vec::new()));
        }
        self.check_horizon()?;
        let regular_required = self.regular_required();
        if let Some(verdict) = self.check_ill_formed(judged.leader, regular_required) {
            return Ok((verdict, Vec::new()));
        }
        let absent = match judged.presence {
            0 if self.made(Mistake::PresenceZeroIncludes) => Some(no_round(INCLUDES)),
            0 => Some(no_round(EVIDENCE)),
            1 => Some(no_round(INCLUDES)),
            _ => None,
        };
        if let Some(verdict) = absent {
            return Ok((verdict.clone(), rule_row(&verdict)));
        }
        let entries = judged.entries.as_ref().map_err(|number| Refused::Number(*number))?;
        self.check_list(judged.presence, entries).map_err(Refused::Number)?;
        Ok(self.judge_entries(judged.presence, entries, regular_required))
    }

    fn check_horizon(&self) -> Result<(), Refused> {
        let round = self.read.point.id.round;
        let span = |round| self.read.schedule.span(round).is_some();
        let known = span(round) && (span(round + 4) || self.made(Mistake::HorizonNow));
        if known { Ok(()) } else { Err(Refused::Number(HORIZON)) }
    }

    fn regular_required(&self) -> bool {
        let (schedule, round) = (&self.read.schedule, self.read.point.id.round);
        if self.made(Mistake::SpansByPeers) {
            return schedule.peers(round) != schedule.peers(round + 4);
        }
        schedule.span(round) != schedule.span(round + 4)
    }

    fn check_ill_formed(&self, leader: bool, regular_required: bool) -> Option<Verdict> {
        let point = &self.read.point;
        if regular_required && point.role != PointRole::Regular {
            return Some(ill_formed(15));
        }
        if regular_required && !self.made(Mistake::RegularAndWave) {
            return None;
        }
        let far = self.is_far(&point.anchor_proof, point.id.round);
        let has_prev = point.prev_digest().is_some() || self.made(Mistake::LeaderWithoutPrev);
        let good = match point.role {
            PointRole::Regular => !(leader && has_prev && far),
            PointRole::AnchorProof { seq_no: 0, .. } => leader && far,
            _ => true,
        };
        (!good).then(|| Verdict { first: u32::from(leader), ..ill_formed(16) })
    }

    fn judge_entries(&self, presence: u8, entries: &[Entry], regular_required: bool) -> (Verdict, Vec<Row>) {
        let (direct, indirect) = split(entries);
        let mut found = Found { first_stays: self.made(Mistake::FirstReason), ..Found::default() };
        self.check_valid(direct, regular_required, &mut found);
        if found.reason.is_none() || self.made(Mistake::IndirectAlways) {
            self.check_indirect_links(indirect, &mut found);
        }
        let missing = presence == 2 && !self.read.point.witness.is_empty();
        if missing && !(self.made(Mistake::EntriesBeforeRound) && found.reason.is_some()) {
            let verdict = no_round(WITNESS);
            return (verdict.clone(), rule_row(&verdict));
        }
        let verdict = match (found.reason, found.record) {
            (Some(_), Some(record)) if self.made(Mistake::RecordWins) => trans_invalid(record),
            (Some(reason), _) => reason,
            (None, Some(record)) => trans_invalid(record),
            (None, None) => Verdict::new(VALID, 0),
        };
        (verdict, found.rows)
    }

    fn check_valid(&self, direct: &[Entry], regular_required: bool, found: &mut Found) {
        for (place, entry) in direct.iter().enumerate() {
            found.entry = (DIRECT, place);
            let Some(id) = entry.state.id() else {
                if self.made(Mistake::DropIsNotFound) {
                    found.set(named(19, self.read.point.id));
                    continue;
                }
                if found.reason.is_none() || self.made(Mistake::DropReplaces) {
                    found.set(invalid(3));
                }
                if self.made(Mistake::DropGoesOn) {
                    continue;
                }
                return;
            };
            if is_version(&self.read.point, id) {
                self.check_version(entry, *id, found);
                if !self.made(Mistake::VersionsChecked) {
                    continue;
                }
            }
            if let Some(dependency) = self.dependency(entry, None, found) {
                self.check_direct(dependency, regular_required, found);
            }
        }
    }

    /// Without a previous digest, another point of the author at r-1.
    fn check_version(&self, entry: &Entry, id: Id, found: &mut Found) {
        match &entry.state {
            State::Valid(_) if entry.first_valid || self.made(Mistake::VersionNotFirst) => found.set(named(9, id)),
            State::NotFound(_) if entry.certified || self.made(Mistake::VersionNotFound) => found.set(named(9, id)),
            State::Valid(_) | State::NotFound(_) | State::Dropped => {}
            _ if entry.certified && self.made(Mistake::CertifiedVersion) => {}
            _ => found.set(named(10, id)),
        }
    }

    /// One direct dependency, its reasons in the order in which the last one stays.
    fn check_direct(&self, dependency: &Point, regular_required: bool, found: &mut Found) {
        let point = &self.read.point;
        let id = dependency.id;
        let prev = point.prev_digest().map(|digest| Id {
            round: point.id.round - 1,
            digest: *digest,
            author: point.id.author,
        });
        if prev == Some(id) {
            self.is_proof_ok(dependency, regular_required, found);
        }
        if !self.made(Mistake::TimeAfterAnchors) {
            self.check_time(dependency, found);
        }
        let mut roles = AnchorStageRole::ALL;
        if self.made(Mistake::TriggerAnchorFirst) {
            roles.reverse();
        }
        for role in roles {
            self.check_newer(dependency, role, found);
        }
        if self.made(Mistake::TimeAfterAnchors) {
            self.check_time(dependency, found);
        }
        if self.made(Mistake::SourcesFirst) {
            self.check_sources(dependency, found);
        }
        for role in AnchorStageRole::ALL {
            if target(point, role) == Some(id) {
                self.check_target(dependency, role, found);
            }
        }
        if !self.made(Mistake::SourcesFirst) {
            self.check_sources(dependency, found);
        }
    }

    fn check_time(&self, dependency: &Point, found: &mut Found) {
        let latest = self.read.point.time + u64::from(self.read.settings.clock_skew_millis);
        if dependency.time > latest || (dependency.time == latest && self.made(Mistake::SkewEdge)) {
            found.set(named(11, dependency.id));
        }
    }

    fn check_newer(&self, dependency: &Point, role: AnchorStageRole, found: &mut Found) {
        let top = if self.made(Mistake::TopIsTarget) { target(dependency, role) } else { self.top(dependency, role) };
        let (Some(top), Some(target)) = (top, target(&self.read.point, role)) else { return };
        if top.round > target.round || (top.round == target.round && self.made(Mistake::AsNewIsNewer)) {
            found.set(of_role(12, role, dependency.id));
        }
    }

    fn check_target(&self, dependency: &Point, role: AnchorStageRole, found: &mut Found) {
        if !self.is_stage(dependency, role) {
            found.set(of_role(13, role, dependency.id));
            return;
        }
        match role {
            Proof => self.check_sequence(dependency, found),
            Trigger => self.check_trigger_proof(dependency, true, found),
        }
    }

    fn check_sequence(&self, dependency: &Point, found: &mut Found) {
        let Some(seq_no @ 1..) = sequence(self.read.point.role) else { return };
        let before = sequence(dependency.role);
        let follows = match before {
            Some(before) => {
                before.checked_add(1) == Some(seq_no) || (self.made(Mistake::SequenceRepeats) && before == seq_no)
            }
            None => self.made(Mistake::SequenceFromNone),
        };
        if !follows {
            let second = before.map_or(u32::MAX, u32::from);
            found.set(Verdict { first: u32::from(seq_no), second, ..named(16, dependency.id) });
        }
    }

    fn check_sources(&self, dependency: &Point, found: &mut Found) {
        let point = &self.read.point;
        let id = dependency.id;
        for role in AnchorStageRole::ALL {
            if source(point, point.link(role)) != Some(id) {
                continue;
            }
            let target = target(point, role);
            let told = self.made(Mistake::RoleEndsPath) && target == Some(id) && !self.is_stage(dependency, role);
            if self.top(dependency, role) != target && !told {
                found.set(of_role(15, role, id));
            }
            match role {
                Proof => self.check_anchor_time(dependency, found),
                Trigger if target != Some(id) => self.check_trigger_proof(dependency, false, found),
                Trigger => {}
            }
        }
    }

    fn check_anchor_time(&self, dependency: &Point, found: &mut Found) {
        let point = &self.read.point;
        let held = !is_proof(point.role) || self.made(Mistake::AnchorTimeOfProofs);
        if held && dependency.anchor_time != point.anchor_time {
            found.set(named(8, dependency.id));
        }
    }

    fn check_trigger_proof(&self, dependency: &Point, is_target: bool, found: &mut Found) {
        let bound =
            if self.made(Mistake::BoundIsTarget) { target(dependency, Proof) } else { self.top(dependency, Proof) };
        let (Some(proof), Some(bound)) = (target(&self.read.point, Proof), bound) else { return };
        let in_reach = proof.round < bound.round
            || (proof.round == bound.round && !self.made(Mistake::BoundOfSameRound))
            || self.made(Mistake::BoundOfAnyRound);
        if in_reach && proof != bound {
            found.set(Verdict { first: u32::from(is_target), ..named(17, dependency.id) });
        }
    }

    fn is_proof_ok(&self, prev: &Point, regular_required: bool, found: &mut Found) {
        let point = &self.read.point;
        let held = !regular_required || self.made(Mistake::ProofWhereRegular);
        let mut reasons = Vec::new();
        if held && is_proof(prev.role) {
            let terminal = !is_proof(point.role);
            let before_last = matches!(prev.role, PointRole::AnchorProof { is_last: false, .. });
            if !self.is_trigger(point.role) {
                reasons.push(4);
            } else if terminal && before_last && !self.made(Mistake::AnyTriggerIsLast) {
                reasons.push(5);
            }
        }
        if point.time < prev.time || (point.time == prev.time && !self.made(Mistake::EqualPrevTime)) {
            reasons.push(6);
        }
        if is_proof(point.role) && point.anchor_time != prev.time {
            reasons.push(7);
        }
        let reason = if self.made(Mistake::AllOfProof) { reasons.last() } else { reasons.first() };
        if let Some(reason) = reason {
            found.set(named(*reason, prev.id));
        }
    }

    fn check_indirect_links(&self, indirect: &[Entry], found: &mut Found) {
        for (place, entry) in indirect.iter().enumerate() {
            found.entry = (INDIRECT, place);
            let Some(role) = entry.indirect else { continue };
            if entry.state == State::Dropped {
                if self.made(Mistake::IndirectDropEnds) {
                    return;
                }
                continue;
            }
            let Some(dependency) = self.dependency(entry, Some(role), found) else { continue };
            if !self.made(Mistake::TargetTime) {
                self.check_time(dependency, found);
            }
            if !self.is_stage(dependency, role) {
                if !(self.made(Mistake::TimeBeforeRole) && found.reason.is_some()) {
                    found.set(of_role(14, role, dependency.id));
                }
                continue;
            }
            match role {
                Proof if self.made(Mistake::TargetAnchorTime) => {}
                Proof => self.check_anchor_time(dependency, found),
                Trigger => self.check_trigger_proof(dependency, true, found),
            }
        }
    }

    /// The point to check against; ill-formed ones and those not found are a reason instead.
    fn dependency<'e>(
        &self,
        entry: &'e Entry,
        indirect: Option<AnchorStageRole>,
        found: &mut Found,
    ) -> Option<&'e Point> {
        let prev_round = self.read.point.id.round - u32::from(!self.made(Mistake::WindowFromPoint));
        let history = u32::from(self.read.settings.commit_history_rounds) + u32::from(self.made(Mistake::WindowLonger));
        let in_window = |root: u32| prev_round < root.saturating_add(history);
        let certified = entry.certified && !self.made(Mistake::CertifiedRecorded);
        let (point, root, reason, recorded) = match &entry.state {
            State::Valid(point) => return Some(point),
            State::Invalid(point, reason) => {
                let kept = !self.made(Mistake::WindowOfInvalid) || in_window(point.id.round);
                (point, point.id, *reason, !certified && kept)
            }
            State::TransInvalid(point, root, reason) => (point, *root, *reason, !certified && in_window(root.round)),
            State::IllFormed(id, reason) => {
                if !(entry.certified && self.made(Mistake::CertifiedIllFormed)) {
                    found.set(Verdict { first: u32::from(*reason), ..named(18, *id) });
                }
                return None;
            }
            State::NotFound(id) => {
                if !(entry.certified && self.made(Mistake::CertifiedNotFound)) {
                    found.set(named(19, *id));
                }
                return None;
            }
            State::Dropped => return None,
        };
        if recorded {
            self.record(point, root, reason, indirect, found);
        }
        let unchecked = if recorded { Mistake::RecordedUnchecked } else { Mistake::UnrecordedUnchecked };
        (!self.made(unchecked)).then_some(point)
    }

    fn record(&self, point: &Point, id: Id, reason: u8, indirect: Option<AnchorStageRole>, found: &mut Found) {
        let replaces = found.record.as_ref().is_none_or(|old| self.is_newer(old, &id, reason));
        if !replaces {
            return;
        }
        let (map, peer) = match indirect {
            Some(role) if !self.made(Mistake::IndirectThroughAuthor) => {
                let link = self.read.point.link(role);
                (if link.through == Through::Includes { INCLUDES } else { WITNESS }, link.peer)
            }
            _ => {
                let included =
                    point.id.round == self.read.point.id.round - 1 || self.made(Mistake::DirectThroughIncludes);
                (if included { INCLUDES } else { WITNESS }, point.id.author)
            }
        };
        found.record = Some(Record { id, reason, map, peer });
    }

    fn is_newer(&self, old: &Record, id: &Id, reason: u8) -> bool {
        if old.id.round != id.round {
            return (old.id.round < id.round) != self.made(Mistake::OlderRecord);
        }
        if self.made(Mistake::LaterRecord) {
            return true;
        }
        let tie = !self.has_dag_round(old.reason) && self.has_dag_round(reason);
        tie && !self.made(Mistake::FirstRecord)
    }

    fn has_dag_round(&self, reason: u8) -> bool {
        match reason {
            2 | 3 => false,
            20 => self.made(Mistake::TwentyHasRound),
            _ => true,
        }
    }
}

fn trans_invalid(record: Record) -> Verdict {
    Verdict {
        id: Some(record.id),
        map: record.map,
        root_reason: record.reason,
        peer: Some(record.peer),
        ..Verdict::new(TRANS_INVALID, 0)
    }
}
