//! Changes to the judged point, its settings and its schedule.

use oracle::value::{AnchorLink, AnchorStageRole, Id, Peer, Point, PointRole, Span, Through};

use crate::random::Random;
use crate::scene::{Scene, peer_set};

use AnchorStageRole::{Proof, Trigger};

pub fn insert<T: Ord>(rising: &mut Vec<T>, item: T) {
    if let Err(place) = rising.binary_search(&item) {
        rising.insert(place, item);
    }
}

pub fn genesis_prev(scene: &mut Scene, random: &mut Random) {
    match random.below(5) {
        0 => scene.point.includes.iter_mut().for_each(|(_, digest)| digest[31] = 1),
        1 => scene.point.includes.clear(),
        2 => scene.point.anchor_proof.through = Through::Witness,
        3 => scene.point.anchor_trigger.peer = random.bytes(),
        _ => scene.point.anchor_trigger.to = Some(scene.point.id),
    }
}

pub fn add_unknown_includes(scene: &mut Scene, random: &mut Random) {
    for _ in 0..1 + random.below(3) {
        let pair = (random.bytes(), random.bytes());
        insert(&mut scene.point.includes, pair);
    }
}

pub fn add_unknown(scene: &mut Scene, random: &mut Random, map: usize) {
    for _ in 0..1 + random.below(3) {
        let pair = (random.bytes(), random.bytes());
        match map {
            0 => insert(&mut scene.point.evidence, pair.0),
            1 => insert(&mut scene.point.includes, pair),
            _ => insert(&mut scene.point.witness, pair),
        }
    }
}

pub fn bad_proof_link(scene: &mut Scene, random: &mut Random) {
    let to = Id { round: scene.round() - 1, ..scene.point.id };
    match random.below(3) {
        0 => scene.point.anchor_proof.through = Through::Witness,
        1 => scene.point.anchor_proof.peer = scene.point.includes.first().map_or([0; 32], |(peer, _)| *peer),
        _ => scene.point.anchor_proof.to = Some(to),
    }
}

/// A peer that the map lacks, or a target that is as new as the link's source.
pub fn bad_indirect(scene: &mut Scene, random: &mut Random, role: AnchorStageRole) {
    let round = scene.round();
    let peers = scene.schedule.peers(round - 1).to_vec();
    let link = link_mut(&mut scene.point, role);
    let Some(to) = &mut link.to else { return };
    if random.chance(1, 2) || peers.is_empty() {
        link.peer = random.bytes();
        return;
    }
    to.round = match link.through {
        Through::Includes => round - random.between(0, 1),
        Through::Witness => round - random.between(1, 2),
    };
    to.author = random.pick(&peers);
}

pub fn link_mut(point: &mut Point, role: AnchorStageRole) -> &mut AnchorLink {
    match role {
        Proof => &mut point.anchor_proof,
        Trigger => &mut point.anchor_trigger,
    }
}

/// `over` 1: a sequence number past the limit; 0: the flag of the last one reversed.
pub fn sticky(scene: &mut Scene, random: &mut Random, over: u8) {
    let limit = scene.settings.sticky_anchors;
    if let PointRole::AnchorProof { seq_no, is_last } = &mut scene.point.role {
        if over == 1 {
            *seq_no = limit.saturating_add(1 + random.below(2) as u8);
            *is_last = random.chance(1, 2);
        } else {
            *is_last = !*is_last;
        }
    }
}

pub fn across_genesis(scene: &mut Scene, random: &mut Random, role: AnchorStageRole) {
    let genesis = scene.settings.genesis_round;
    scene.schedule.spans[0].first = 0;
    let Some(author) = scene.schedule.spans[0].peers.first().copied() else { return };
    let digest = random.bytes();
    let link = link_mut(&mut scene.point, role);
    if link.to.is_some() {
        link.to = Some(Id { round: genesis - random.between(1, 3), digest, author });
    }
}

/// A target's author whom its round doesn't know, or a round that has no set.
pub fn unknown_target(scene: &mut Scene, random: &mut Random, role: AnchorStageRole) {
    let before = scene.schedule.spans[0].first.saturating_sub(1);
    if let Some(to) = &mut link_mut(&mut scene.point, role).to {
        match random.below(3) {
            0 => to.round = before,
            1 => to.round = u32::MAX,
            _ => to.author = random.bytes(),
        }
    }
}

/// Takes pairs away until a majority is lacking; those that links name stay.
pub fn lack_includes(scene: &mut Scene, random: &mut Random) {
    let majority = (scene.schedule.peers(scene.round() - 1).len() + 1) / 3 * 2 + 1;
    let named = [scene.point.anchor_proof.peer, scene.point.anchor_trigger.peer, scene.point.id.author];
    let mut spare: Vec<Peer> =
        scene.point.includes.iter().map(|(peer, _)| *peer).filter(|peer| !named.contains(peer)).collect();
    random.shuffle(&mut spare);
    let least = if random.chance(1, 2) { majority - 1 } else { 1 };
    while scene.point.includes.len() > least {
        let Some(peer) = spare.pop() else { return };
        scene.point.includes.retain(|(other, _)| *other != peer);
    }
}

/// A set of a wrong size at r, r-1 or r-2.
pub fn fail(scene: &mut Scene, random: &mut Random, back: u32) {
    let round = scene.round();
    let sets: Vec<Vec<Peer>> = (0..3).map(|back| scene.schedule.peers(round - back).to_vec()).collect();
    let mut spans = Vec::new();
    for place in (0..3).rev() {
        let mut peers = sets[place as usize].clone();
        if place == back {
            if peers.len() == 1 {
                let count = 1 + random.below(3);
                peers = peer_set(random, count);
                peers.push([255; 32]);
            } else {
                peers.truncate(random.below(3));
            }
        }
        spans.push(Span { first: round - place, peers });
    }
    scene.schedule.spans = spans;
}

pub fn near_proof(scene: &mut Scene, random: &mut Random) {
    let round = scene.round() - random.between(3, 4);
    let peers = scene.schedule.peers(round).to_vec();
    if let Some(to) = &mut scene.point.anchor_proof.to
        && !peers.is_empty()
    {
        to.round = round;
        to.author = random.pick(&peers);
    }
}

pub fn out_of_domain(scene: &mut Scene, random: &mut Random) {
    match random.below(6) {
        0 => scene.point.id.round = random.between(0, 3),
        1 => scene.point.id.round = 2_147_483_648 + random.between(0, 3),
        2 => scene.point.time = i64::MAX as u64 + u64::from(random.between(0, 1)),
        3 => scene.point.anchor_time = i64::MAX as u64 + 1,
        4 => scene.presence = 4 + random.below(3) as u8,
        _ => scene.leader = 2 + random.below(250) as u8,
    }
}

pub fn settings_out_of_limits(scene: &mut Scene, random: &mut Random) {
    let settings = &mut scene.settings;
    match random.below(5) {
        0 => settings.genesis_round = random.between(0, 3),
        1 => settings.genesis_round = 2_147_483_648 + random.between(0, 9),
        2 => settings.payload_batch_bytes = 0,
        3 => settings.clock_skew_millis = 0,
        _ => settings.commit_history_rounds = 0,
    }
}

/// The judged point's author stands in every set again.
pub fn keep_author(scene: &mut Scene) {
    let author = scene.point.id.author;
    for span in &mut scene.schedule.spans {
        if span.peers.len() > 1 && !span.peers.contains(&author) {
            span.peers.pop();
            insert(&mut span.peers, author);
        }
    }
}
