//! The points of a book and what leads from one to another.

use std::collections::{BTreeMap, BTreeSet};

use wutherdish::{AnchorLink, AnchorStageRole, Digest, Kept, Point, PointId, Settings, Status, Through};

use crate::marks::{Cause, causes};

/// What leads from a point to another.
#[derive(Clone, Copy, PartialEq, Eq, PartialOrd, Ord, Debug)]
pub enum Way {
    /// It includes it.
    Includes,
    /// It witnesses it.
    Witness,
    /// Its offer marked it certified, as its previous point.
    Certifies,
    /// A mark went on through it to the other.
    PassesOn,
    /// Its anchor proof link is a direct one.
    DirectProof,
    /// Its anchor proof link is an indirect one.
    IndirectProof,
    /// Its anchor trigger link is a direct one.
    DirectTrigger,
    /// Its anchor trigger link is an indirect one.
    IndirectTrigger,
    /// Its root cause came through it.
    RootThrough,
    /// It is the root cause, or the root cause came through this one to a point.
    Root,
}

/// A point of the picture.
pub struct Node<'a> {
    /// Its id.
    pub id: PointId,
    /// What the book keeps of it; none where it is only named.
    pub kept: Option<&'a Kept>,
    /// Why it is marked; none where it is not, or where no offer marked it.
    pub cause: Option<Cause>,
}

/// A way between two points, which are given by their places among the nodes.
#[derive(Clone, Copy, PartialEq, Eq, PartialOrd, Ord, Debug)]
pub struct Edge {
    /// What it is.
    pub way: Way,
    /// The point that names the other.
    pub from: usize,
    /// The point that is named.
    pub to: usize,
}

/// All points and ways.
pub struct Graph<'a> {
    /// The points by round and author; versions in the book's order, those that are not kept after them.
    pub nodes: Vec<Node<'a>>,
    /// The ways.
    pub edges: BTreeSet<Edge>,
}

impl<'a> Graph<'a> {
    /// What a book's entries say.
    pub fn new(settings: &Settings, kept: &'a [Kept]) -> Self {
        let is_marked = |(entry, cause): (&Kept, Option<Cause>)| cause.filter(|_| entry.certified);
        let causes: Vec<Option<Cause>> = kept.iter().zip(causes(settings, kept)).map(is_marked).collect();
        let marks = causes.iter().flatten().map(mark);
        let ways: Vec<_> = kept.iter().flat_map(ways).chain(marks).collect();
        let order: BTreeMap<PointId, usize> = kept.iter().enumerate().map(|(n, entry)| (entry.point.id, n)).collect();
        let named = ways.iter().flat_map(|&(_, from, to)| [from, to]);
        let ids: BTreeSet<PointId> = kept.iter().map(|entry| entry.point.id).chain(named).collect();
        let place = |id: &PointId| order.get(id).copied();
        let node = |id| {
            let place = place(&id);
            Node { id, kept: place.map(|n| &kept[n]), cause: place.and_then(|n| causes[n].clone()) }
        };
        let mut nodes: Vec<Node> = ids.into_iter().map(node).collect();
        nodes.sort_by_key(|node| (node.id.round, node.id.author, place(&node.id).unwrap_or(usize::MAX)));
        let places: BTreeMap<PointId, usize> = nodes.iter().enumerate().map(|(n, node)| (node.id, n)).collect();
        let edges =
            ways.into_iter().map(|(way, from, to)| Edge { way, from: places[&from], to: places[&to] }).collect();
        Self { nodes, edges }
    }
}

/// The ways that a kept point adds.
fn ways(entry: &Kept) -> Vec<(Way, PointId, PointId)> {
    let point = &entry.point;
    let (includes, witness) = (point.includes.keys().copied(), point.witness.keys().copied());
    let includes = includes.map(|peer| (Way::Includes, point.through_id(Through::Includes(peer))));
    let witness = witness.map(|peer| (Way::Witness, point.through_id(Through::Witness(peer))));
    let links =
        [AnchorStageRole::Proof, AnchorStageRole::Trigger].map(|role| (link(point, role), point.link_target(role)));
    // the digest of zeros that a genesis point includes stands for no point
    let named = |to: &PointId| to.digest != Digest([0; 32]);
    let ways = includes.chain(witness).chain(links);
    let ways = ways.filter_map(|(way, to)| to.filter(named).map(|to| (way, point.id, to)));
    ways.chain(root(entry)).collect()
}

fn link(point: &Point, role: AnchorStageRole) -> Way {
    match (role, point.anchor_link(role)) {
        (AnchorStageRole::Proof, AnchorLink::Direct(_)) => Way::DirectProof,
        (AnchorStageRole::Proof, AnchorLink::Indirect(_)) => Way::IndirectProof,
        (AnchorStageRole::Trigger, AnchorLink::Direct(_)) => Way::DirectTrigger,
        (AnchorStageRole::Trigger, AnchorLink::Indirect(_)) => Way::IndirectTrigger,
    }
}

/// The last step that a mark came: from the offer itself to its previous point, or from an entry to its dependency.
fn mark(Cause { by, chain }: &Cause) -> (Way, PointId, PointId) {
    match chain[..] {
        [.., from, to] => (Way::PassesOn, from, to),
        [prev] => (Way::Certifies, *by, prev),
        [] => unreachable!("a chain begins with the previous point"),
    }
}

/// The way to a root cause: through a dependency, or at once where that is the root cause.
fn root(entry: &Kept) -> Vec<(Way, PointId, PointId)> {
    let Status::TransInvalid(root) = entry.status else { return Vec::new() };
    let (from, to) = (entry.id(), root.link.to);
    match entry.point.through_id(root.link.through) {
        Some(through) if through != to => vec![(Way::RootThrough, from, through), (Way::Root, through, to)],
        _ => vec![(Way::Root, from, to)],
    }
}
