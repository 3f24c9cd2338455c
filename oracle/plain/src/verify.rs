//! `BasicVerifier::verify`.

use oracle::Verdict;
use oracle::answer::{EVIDENCE, FAIL, ILL_FORMED, INCLUDES, PROOF, TRIGGER, WITNESS};
use oracle::value::{AnchorStageRole, Peer, Point, PointRole, Settings, Through, find};

use crate::anchor::target_round;
use crate::{Mistake, Rules};

pub fn role_number(role: AnchorStageRole) -> u8 {
    match role {
        AnchorStageRole::Proof => PROOF,
        AnchorStageRole::Trigger => TRIGGER,
    }
}

pub fn ill_formed(reason: u8) -> Verdict {
    Verdict::new(ILL_FORMED, reason)
}

fn structure(issue: u32) -> Verdict {
    Verdict { first: issue, ..ill_formed(7) }
}

fn author_in(map: u8) -> Verdict {
    Verdict { map, ..structure(3) }
}

fn refuse(test: bool, verdict: Verdict) -> Result<(), Verdict> {
    if test { Err(verdict) } else { Ok(()) }
}

impl Rules<'_> {
    pub fn verify(&self) -> Result<(), Verdict> {
        self.check_sets()?;
        if !self.made(Mistake::TargetsLate) {
            self.check_targets()?;
        }
        self.check_well_formed()?;
        if self.made(Mistake::TargetsLate) {
            self.check_targets()?;
        }
        self.check_peers()
    }

    fn point(&self) -> &Point {
        &self.read.point
    }

    fn settings(&self) -> &Settings {
        &self.read.settings
    }

    fn peers(&self, back: u32) -> &[Peer] {
        self.read.schedule.peers(self.point().id.round - back)
    }

    fn above(&self) -> u32 {
        self.point().id.round - self.settings().genesis_round
    }

    /// `BasicVerifierInner::new`, up to the counts.
    fn check_sets(&self) -> Result<(), Verdict> {
        refuse(self.point().id.round < self.settings().genesis_round, ill_formed(3))?;
        let counts_first = self.made(Mistake::CountsFirst);
        if self.made(Mistake::AuthorFirst) {
            self.check_author()?;
        }
        self.check_count(0, EVIDENCE)?;
        if !counts_first {
            self.check_author()?;
        }
        if self.above() >= 1 {
            self.check_count(1, INCLUDES)?;
        }
        if self.above() >= 2 {
            self.check_count(2, WITNESS)?;
        }
        if counts_first { self.check_author() } else { Ok(()) }
    }

    fn check_author(&self) -> Result<(), Verdict> {
        refuse(self.peers(0).binary_search(&self.point().id.author).is_err(), ill_formed(4))
    }

    /// One peer at genesis, at least three above it.
    fn check_count(&self, back: u32, map: u8) -> Result<(), Verdict> {
        let count = self.peers(back).len();
        let enough = if self.above() == back { count == 1 } else { count >= 3 };
        let round = self.point().id.round - back;
        refuse(!enough, Verdict { map, first: count as u32, second: round, ..Verdict::new(FAIL, 0) })
    }

    fn check_targets(&self) -> Result<(), Verdict> {
        if self.above() == 0 && self.made(Mistake::TargetsPastGenesis) {
            return Ok(());
        }
        for role in AnchorStageRole::ALL {
            let known = self
                .point()
                .link(role)
                .to
                .is_none_or(|to| self.read.schedule.peers(to.round).binary_search(&to.author).is_ok());
            refuse(!known, Verdict { role: role_number(role), ..ill_formed(13) })?;
        }
        Ok(())
    }

    fn check_well_formed(&self) -> Result<(), Verdict> {
        let (point, settings) = (self.point(), self.settings());
        if self.above() == 0 {
            return self.check_genesis();
        }
        let limit = settings.payload_batch_bytes;
        let too_large =
            point.payload_bytes > limit || (self.made(Mistake::PayloadAtLimit) && point.payload_bytes == limit);
        refuse(too_large, Verdict { first: point.payload_bytes, ..ill_formed(6) })?;
        self.check_structure()?;
        self.check_sticky()?;
        let across = AnchorStageRole::ALL.into_iter().any(|role| {
            let passes = self.made(Mistake::DirectAcrossGenesis) && point.link(role).to.is_none();
            !passes && target_round(point, role) < settings.genesis_round
        });
        refuse(across, ill_formed(10))
    }

    fn check_genesis(&self) -> Result<(), Verdict> {
        let (point, settings) = (self.point(), self.settings());
        refuse(point.id.digest != settings.genesis_digest, ill_formed(5))?;
        let payload = if self.made(Mistake::GenesisPayloadBytes) { point.payload_bytes } else { point.payload_len };
        refuse(payload > 0, Verdict { first: point.payload_bytes, ..ill_formed(6) })?;
        refuse(point.role != PointRole::Genesis, Verdict { second: 1, ..structure(1) })?;
        if self.made(Mistake::GenesisOrder) {
            self.check_genesis_prev()?;
        }
        refuse(point.time != point.anchor_time && !self.made(Mistake::GenesisTime), structure(6))?;
        self.check_genesis_prev()
    }

    fn check_genesis_prev(&self) -> Result<(), Verdict> {
        let point = self.point();
        let own = oracle::value::AnchorLink { through: Through::Includes, peer: point.id.author, to: None };
        let good = point.prev_digest() == Some(&[0; 32]) && point.anchor_proof == own && point.anchor_trigger == own;
        refuse(!good, structure(2))
    }

    /// `check_non_genesis_structure`
    fn check_structure(&self) -> Result<(), Verdict> {
        let point = self.point();
        refuse(point.role == PointRole::Genesis, structure(1))?;
        let has_prev = point.prev_digest().is_some();
        let no_prev = !has_prev && matches!(point.role, PointRole::AnchorProof { .. } | PointRole::AnchorTrigger);
        let late = self.made(Mistake::PrevPointLate);
        refuse(no_prev && !late, structure(7))?;
        self.check_author_in_maps(has_prev)?;
        refuse(no_prev && late, structure(7))?;
        let own = point.anchor_proof.to.is_none()
            && point.anchor_proof.through == Through::Includes
            && point.anchor_proof.peer == point.id.author;
        refuse(self.is_trigger(point.role) && !own, structure(4))?;
        self.check_links()?;
        let early =
            point.time < point.anchor_time || (point.time == point.anchor_time && !self.made(Mistake::EqualAnchorTime));
        refuse(early, structure(6))
    }

    fn check_author_in_maps(&self, has_prev: bool) -> Result<(), Verdict> {
        let point = self.point();
        let author = &point.id.author;
        let reported = if self.made(Mistake::EmptyEvidence) && has_prev { EVIDENCE } else { INCLUDES };
        refuse(point.evidence.is_empty() == has_prev, author_in(reported))?;
        let in_witness = find(&point.witness, author).is_some();
        refuse(in_witness && self.made(Mistake::WitnessBeforeEvidence), author_in(WITNESS))?;
        refuse(point.evidence.binary_search(author).is_ok(), author_in(EVIDENCE))?;
        refuse(in_witness, author_in(WITNESS))
    }

    fn check_links(&self) -> Result<(), Verdict> {
        let mut roles = AnchorStageRole::ALL;
        if self.made(Mistake::TriggerLinkFirst) {
            roles.reverse();
        }
        for role in roles {
            let link = self.point().link(role);
            let source_round = self.point().id.round - oracle::value::back(link.through);
            let as_new = link.to.is_some_and(|to| {
                to.round > source_round || (to.round == source_round && !self.made(Mistake::TargetAsNewAsSource))
            });
            let lacks = find(self.point().map(link.through), &link.peer).is_none();
            let map = if link.through == Through::Includes { INCLUDES } else { WITNESS };
            refuse(lacks || as_new, Verdict { map, role: role_number(role), ..structure(5) })?;
        }
        Ok(())
    }

    fn check_sticky(&self) -> Result<(), Verdict> {
        let PointRole::AnchorProof { seq_no, is_last } = self.point().role else { return Ok(()) };
        let limit = self.settings().sticky_anchors;
        let wrong_flag = is_last != (seq_no == limit);
        refuse(wrong_flag && self.made(Mistake::LastFlagFirst), ill_formed(9))?;
        refuse(seq_no > limit, Verdict { first: u32::from(seq_no), ..ill_formed(8) })?;
        refuse(wrong_flag, ill_formed(9))
    }

    fn check_peers(&self) -> Result<(), Verdict> {
        let point = self.point();
        let includes: Vec<Peer> = point.includes.iter().map(|(peer, _)| *peer).collect();
        let witness: Vec<Peer> = point.witness.iter().map(|(peer, _)| *peer).collect();
        // at genesis the includes are checked against the set of r
        let set_back = u32::from(self.above() > 0);
        let evidence_back = if self.made(Mistake::EvidenceSet) { set_back } else { 0 };
        let includes_back = if self.made(Mistake::IncludesSet) { 0 } else { set_back };
        if !point.evidence.is_empty() {
            let genesis_set = self.above() == 0 && !self.made(Mistake::EvidenceAtGenesis);
            refuse(genesis_set, Verdict { map: EVIDENCE, ..ill_formed(11) })?;
            self.check_unknown(&point.evidence, evidence_back, EVIDENCE)?;
            let f = self.f(0);
            let least = 2 * f + usize::from(self.made(Mistake::EvidenceMajority));
            self.check_enough(point.evidence.len(), least, f, EVIDENCE)?;
        }
        self.check_unknown(&includes, includes_back, INCLUDES)?;
        let f = self.f(set_back);
        let least = 2 * f + usize::from(!self.made(Mistake::IncludesOfOthers));
        self.check_enough(includes.len(), least, f, INCLUDES)?;
        if witness.is_empty() {
            return Ok(());
        }
        refuse(self.above() < 2, Verdict { map: WITNESS, ..ill_formed(11) })?;
        let witness_back = if self.made(Mistake::WitnessSet) { 1 } else { 2 };
        self.check_unknown(&witness, witness_back, WITNESS)
    }

    /// F of the set n rounds back; the genesis set has none.
    fn f(&self, back: u32) -> usize {
        let count = self.peers(back).len();
        match (self.above() == back, self.made(Mistake::FloorOfPeers)) {
            (true, _) => 0,
            (false, true) => count / 3,
            (false, false) => (count + 1) / 3,
        }
    }

    fn check_unknown(&self, named: &[Peer], back: u32, map: u8) -> Result<(), Verdict> {
        let mut unknown = self.unknown(named, back);
        if unknown.is_empty() {
            return Ok(());
        }
        if self.made(Mistake::AllUnknown) && map == EVIDENCE {
            let includes: Vec<Peer> = self.point().includes.iter().map(|(peer, _)| *peer).collect();
            unknown.extend(self.unknown(&includes, 1));
            unknown.sort_unstable();
            unknown.dedup();
        }
        Err(Verdict { map, unknown, ..ill_formed(12) })
    }

    fn unknown(&self, named: &[Peer], back: u32) -> Vec<Peer> {
        let set = self.peers(back);
        named.iter().filter(|peer| set.binary_search(peer).is_err()).copied().collect()
    }

    fn check_enough(&self, count: usize, least: usize, f: usize, map: u8) -> Result<(), Verdict> {
        refuse(count < least, Verdict { map, first: count as u32, second: f as u32, ..ill_formed(14) })
    }
}
