//! Stages, links and their ends: link.rs, data.rs and info.rs.

use oracle::value::{AnchorLink, AnchorStageRole, Id, Point, PointRole, back, find};

use crate::{Mistake, Rules};

pub fn is_proof(role: PointRole) -> bool {
    matches!(role, PointRole::AnchorProof { .. } | PointRole::Genesis)
}

/// The point in its map that a link names. Listed points' direct links name one.
pub fn source(point: &Point, link: &AnchorLink) -> Option<Id> {
    let digest = *find(point.map(link.through), &link.peer)?;
    Some(Id { round: point.id.round - back(link.through), digest, author: link.peer })
}

pub fn target(point: &Point, role: AnchorStageRole) -> Option<Id> {
    let link = point.link(role);
    link.to.or_else(|| source(point, link))
}

pub fn target_round(point: &Point, role: AnchorStageRole) -> u32 {
    let link = point.link(role);
    link.to.map_or(point.id.round - back(link.through), |to| to.round)
}

pub fn sequence(role: PointRole) -> Option<u8> {
    match role {
        PointRole::AnchorProof { seq_no, .. } => Some(seq_no),
        _ => None,
    }
}

impl Rules<'_> {
    pub fn is_trigger(&self, role: PointRole) -> bool {
        match role {
            PointRole::Regular => false,
            PointRole::AnchorProof { seq_no, .. } => seq_no > 0 || self.made(Mistake::FirstProofIsTrigger),
            PointRole::AnchorTrigger | PointRole::Genesis => true,
        }
    }

    pub fn is_stage(&self, point: &Point, role: AnchorStageRole) -> bool {
        match role {
            AnchorStageRole::Proof => is_proof(point.role),
            AnchorStageRole::Trigger => self.is_trigger(point.role),
        }
    }

    /// The point itself where it is a stage, else its link's target.
    pub fn top(&self, point: &Point, role: AnchorStageRole) -> Option<Id> {
        if self.is_stage(point, role) { Some(point.id) } else { target(point, role) }
    }

    /// `is_wave_far_enough`
    pub fn is_far(&self, link: &AnchorLink, round: u32) -> bool {
        let enough = if self.made(Mistake::NearIsFar) { 3 } else { 4 };
        match link.to {
            Some(to) => round.saturating_sub(to.round) >= enough,
            None => self.made(Mistake::DirectIsFar),
        }
    }
}
