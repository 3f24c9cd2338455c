//! Stages and their newest points, as links have to name them.

use oracle::value::{AnchorLink, AnchorStageRole, Id, Point, PointRole, Through};

/// Whether a point is a stage of this role itself: `AnchorView::top`.
pub fn is_stage(point: &Point, role: AnchorStageRole) -> bool {
    match (point.role, role) {
        (PointRole::Genesis, _) => true,
        (PointRole::AnchorProof { .. }, AnchorStageRole::Proof) => true,
        (PointRole::AnchorProof { seq_no, .. }, AnchorStageRole::Trigger) => seq_no > 0,
        (PointRole::AnchorTrigger, AnchorStageRole::Trigger) => true,
        _ => false,
    }
}

/// The point itself where it is a stage, else its link's target.
pub fn top(point: &Point, role: AnchorStageRole) -> Option<Id> {
    if is_stage(point, role) {
        return Some(point.id);
    }
    let link = point.link(role);
    link.to.or_else(|| point.dependencies(link.through).find(|id| id.author == link.peer))
}

/// A link through this dependency to its top.
pub fn link_through((through, dependency): (Through, &Point), role: AnchorStageRole) -> AnchorLink {
    let to = top(dependency, role).filter(|id| *id != dependency.id);
    AnchorLink { through, peer: dependency.id.author, to }
}
