//! Changes to the entries of a list.

use oracle::numbers::{LAST_ROUND, is_version};
use oracle::value::{AnchorLink, AnchorStageRole, Entry, Id, Point, PointRole, State, Through, back};

use crate::random::Random;
use crate::scene::{Scene, set_link};

use AnchorStageRole::{Proof, Trigger};

/// r-2 is gone: what stands for it in the list goes too.
pub fn presence_two(scene: &mut Scene, _: &mut Random) {
    let round = scene.round() - 2;
    scene.presence = 2;
    scene.entries.retain(|entry| entry.indirect.is_none() && entry.state.id().is_none_or(|id| id.round != round));
}

pub fn direct_count(scene: &Scene) -> usize {
    scene.entries.iter().filter(|entry| entry.indirect.is_none()).count()
}

pub fn drop_entry(scene: &mut Scene, random: &mut Random) {
    let direct = direct_count(scene);
    let place = if random.chance(1, 6) { random.below(scene.entries.len()) } else { random.below(direct) };
    scene.entries[place].state = State::Dropped;
}

/// The first of the direct entries is dropped.
pub fn drop_first(scene: &mut Scene, _: &mut Random) {
    scene.entries.insert(0, Entry { indirect: None, certified: false, first_valid: false, state: State::Dropped });
}

/// Two trans-invalid entries with roots of one round and different reasons.
pub fn tied_records(scene: &mut Scene, random: &mut Random) {
    let prev = scene.prev();
    let round = scene.round() - 1;
    let mut places: Vec<usize> = (0..direct_count(scene))
        .filter(|place| {
            let id = scene.entries[*place].state.id().copied();
            id != prev && id.is_some_and(|id| !is_version(&scene.point, &id))
        })
        .collect();
    random.shuffle(&mut places);
    for place in places.into_iter().take(2) {
        let entry = &mut scene.entries[place];
        let Some(point) = state_point(&mut entry.state).cloned() else { continue };
        let reason = random.pick(&[2, 3, 20, 1, 6]);
        entry.state = State::TransInvalid(point, Id { round, digest: random.bytes(), author: random.bytes() }, reason);
        entry.certified = false;
    }
}

/// A dropped entry though every dependency stands in the list.
pub fn spare_drop(scene: &mut Scene, random: &mut Random) {
    let place = random.below(direct_count(scene) + 1);
    scene.entries.insert(place, Entry { indirect: None, certified: false, first_valid: false, state: State::Dropped });
}

/// The record at an id's direct entry.
pub fn point_mut(scene: &mut Scene, id: Option<Id>) -> Option<&mut Point> {
    let place = scene.place(&id?)?;
    state_point(&mut scene.entries[place].state)
}

fn state_point(state: &mut State) -> Option<&mut Point> {
    match state {
        State::Valid(point) | State::TransInvalid(point, _, _) | State::Invalid(point, _) => Some(point),
        _ => None,
    }
}

/// The record of an indirect entry.
fn target_mut(scene: &mut Scene, role: AnchorStageRole) -> Option<&mut Point> {
    let entry = scene.entries.iter_mut().find(|entry| entry.indirect == Some(role))?;
    state_point(&mut entry.state)
}

/// Some direct dependency with a record.
pub fn any_point<'a>(scene: &'a mut Scene, random: &mut Random) -> Option<&'a mut Point> {
    let place = random.below(direct_count(scene).max(1));
    state_point(&mut scene.entries.get_mut(place)?.state)
}

pub fn not_last_proof(scene: &mut Scene, _: &mut Random) {
    let prev = scene.prev();
    if let Some(point) = point_mut(scene, prev)
        && let PointRole::AnchorProof { is_last, .. } = &mut point.role
    {
        *is_last = false;
    }
}

pub fn prev_proof(scene: &mut Scene, _: &mut Random) {
    let prev = scene.prev();
    if let Some(point) = point_mut(scene, prev) {
        point.role = PointRole::AnchorProof { seq_no: 0, is_last: true };
    }
}

pub fn prev_time(scene: &mut Scene, random: &mut Random) {
    let (prev, time) = (scene.prev(), scene.point.time);
    if let Some(point) = point_mut(scene, prev) {
        point.time = time + u64::from(random.between(0, 1));
    }
}

pub fn other_candidate_time(scene: &mut Scene, random: &mut Random) {
    let prev = scene.prev();
    if let Some(point) = point_mut(scene, prev) {
        point.time -= u64::from(random.between(1, 2));
    }
}

pub fn proof_anchor_time(scene: &mut Scene, random: &mut Random, target: bool) {
    let source = scene.source(Proof);
    let point = if target { target_mut(scene, Proof) } else { point_mut(scene, source) };
    if let Some(point) = point {
        point.anchor_time += u64::from(random.between(1, 2));
    }
}

/// Another version of the author's previous point. `skipped`: one that asks for a skipped round.
pub fn version(scene: &mut Scene, random: &mut Random, skipped: bool) {
    let id = Id { round: scene.round() - 1, digest: random.bytes(), author: scene.point.id.author };
    let mut point = scene.point.clone();
    point.id = id;
    point.includes.truncate(1);
    point.witness.clear();
    point.evidence.clear();
    let (proof, trigger) = (scene.target(Proof).unwrap_or(id), scene.target(Trigger).unwrap_or(id));
    set_link(random, &mut point, Proof, proof);
    set_link(random, &mut point, Trigger, trigger);
    let mut entry = Entry { indirect: None, certified: false, first_valid: true, state: State::NotFound(id) };
    entry.certified = random.chance(1, 2);
    entry.state = match (skipped, random.below(3)) {
        (true, 0) => State::IllFormed(id, random.between(1, 16) as u8),
        (true, 1) => State::Invalid(point, random.between(1, 20) as u8),
        (true, _) => State::TransInvalid(point, Id { round: scene.round() - 2, ..id }, random.between(1, 20) as u8),
        (false, 0) => {
            entry.certified = true;
            State::NotFound(id)
        }
        (false, _) => State::Valid(point),
    };
    let place = random.below(direct_count(scene) + 1);
    scene.entries.insert(place, entry);
}

/// A time at the skew's edge or past it.
pub fn future_time(scene: &mut Scene, random: &mut Random, target: bool) {
    let edge = scene.point.time + u64::from(scene.settings.clock_skew_millis);
    let prev = scene.prev();
    let role = random.pick(&[Proof, Trigger]);
    let point = if target { target_mut(scene, role) } else { any_point(scene, random) };
    if let Some(point) = point
        && Some(point.id) != prev
    {
        point.time = edge + random.pick(&[0, 1, 1, 1, 50]);
    }
}

/// A dependency's link goes to a newer anchor than the judged point's, or to one as new.
pub fn newer(scene: &mut Scene, random: &mut Random, role: AnchorStageRole) {
    let Some(target) = scene.target(role) else { return };
    let peers = scene.schedule.peers(target.round).to_vec();
    let up = random.pick(&[0, 1, 1, 1]);
    let author = if peers.is_empty() { target.author } else { random.pick(&peers) };
    let to = Id { round: target.round + up, digest: random.bytes(), author };
    let link_random = &mut Random::new(random.number(), 0);
    if let Some(point) = any_point(scene, random) {
        set_link(link_random, point, role, to);
    }
}

/// A dependency that is itself a proof or a trigger.
pub fn other_stage(scene: &mut Scene, random: &mut Random) {
    let proof = PointRole::AnchorProof { seq_no: random.below(3) as u8, is_last: random.chance(1, 2) };
    let role = random.pick(&[proof, PointRole::AnchorTrigger, PointRole::Genesis]);
    if let Some(point) = any_point(scene, random) {
        point.role = role;
    }
}

pub fn not_stage(scene: &mut Scene, random: &mut Random, role: AnchorStageRole) {
    let target = scene.target(role);
    let other = match role {
        Proof => random.pick(&[PointRole::Regular, PointRole::AnchorTrigger]),
        Trigger => random.pick(&[PointRole::Regular, PointRole::AnchorProof { seq_no: 0, is_last: true }]),
    };
    if let Some(point) = point_mut(scene, target) {
        point.role = other;
    }
}

pub fn wrong_target_role(scene: &mut Scene, random: &mut Random, role: AnchorStageRole) {
    let other = match role {
        Proof => random.pick(&[PointRole::Regular, PointRole::AnchorTrigger]),
        Trigger => random.pick(&[PointRole::Regular, PointRole::AnchorProof { seq_no: 0, is_last: true }]),
    };
    let late = scene.point.time + u64::from(scene.settings.clock_skew_millis) + 1;
    let too_late = random.chance(1, 4);
    if let Some(point) = target_mut(scene, role) {
        point.role = other;
        if too_late {
            point.time = late;
        }
    }
}

/// The source leads elsewhere: to another point of the target's round, or to an older one.
pub fn bad_path(scene: &mut Scene, random: &mut Random, role: AnchorStageRole) {
    let (Some(source), Some(target)) = (scene.source(role), scene.target(role)) else { return };
    let round = if random.chance(1, 2) { target.round } else { target.round - 1 };
    let to = Id { round, digest: random.bytes(), author: target.author };
    if let Some(point) = point_mut(scene, Some(source)) {
        set_link(random, point, role, to);
    }
}

pub fn wrong_sequence(scene: &mut Scene, random: &mut Random) {
    let prev = scene.prev();
    let wrong = random.below(4) as u8;
    let genesis = random.chance(1, 5);
    if let Some(point) = point_mut(scene, prev)
        && let PointRole::AnchorProof { seq_no, .. } = &mut point.role
    {
        *seq_no = if wrong == 3 { 255 } else { seq_no.wrapping_add(wrong) };
        if genesis {
            point.role = PointRole::Genesis;
        }
    }
}

/// A trigger's target or source is bound to another proof of the same round.
pub fn other_bound(scene: &mut Scene, random: &mut Random, target: bool) {
    let Some(proof) = scene.target(Proof) else { return };
    let id = if target { scene.target(Trigger) } else { scene.source(Trigger) };
    let to = match random.below(4) {
        0 => Id { round: proof.round - 1, digest: random.bytes(), ..proof },
        _ => Id { digest: random.bytes(), ..proof },
    };
    if let Some(point) = point_mut(scene, id) {
        set_link(random, point, Proof, to);
    }
}

pub fn other_target_bound(scene: &mut Scene, random: &mut Random) {
    let Some(proof) = scene.target(Proof) else { return };
    let round = random.pick(&[proof.round - 1, proof.round, proof.round, proof.round + 1]);
    let to = Id { round, digest: random.bytes(), author: proof.author };
    if let Some(point) = target_mut(scene, Trigger) {
        set_link(random, point, Proof, to);
    }
}

fn unusable_state(random: &mut Random, id: Id, ill_formed: bool) -> State {
    if ill_formed { State::IllFormed(id, random.between(1, 16) as u8) } else { State::NotFound(id) }
}

pub fn unusable(scene: &mut Scene, random: &mut Random, ill_formed: bool) {
    let place = random.below(direct_count(scene).max(1));
    if let Some(id) = scene.entries.get(place).and_then(|entry| entry.state.id().copied()) {
        scene.entries[place].state = unusable_state(random, id, ill_formed);
    }
}

pub fn unusable_target(scene: &mut Scene, random: &mut Random) {
    let ill_formed = random.chance(1, 2);
    let indirect = scene.entries.iter_mut().filter(|entry| entry.indirect.is_some());
    let Some(entry) = indirect.last() else { return };
    if let Some(id) = entry.state.id().copied() {
        entry.state = unusable_state(random, id, ill_formed);
    }
}

/// Makes an entry invalid or trans-invalid. Roots lie at the window's edge, in a tie, or anywhere.
fn soil(scene: &mut Scene, random: &mut Random, place: usize, certified: bool) {
    let history = u32::from(scene.settings.commit_history_rounds);
    let edge = (scene.round() - 1).saturating_sub(history).max(4);
    let entry = &mut scene.entries[place];
    let Some(point) = state_point(&mut entry.state).cloned() else { return };
    let any = random.between(1, 20) as u8;
    let reason = random.pick(&[1, 2, 3, 20, 6, 19, 11, any]);
    let newest = point.id.round;
    entry.state = if random.chance(1, 3) {
        State::Invalid(point, reason)
    } else {
        let round = match random.below(9) {
            0 | 1 => edge,
            2 | 3 => edge + 1,
            4 | 5 => newest.saturating_sub(1).max(4),
            6 => newest + random.between(0, 300),
            _ => random.between(4.max(newest.saturating_sub(30)), newest.max(4)),
        };
        let round = round.min(LAST_ROUND);
        State::TransInvalid(point, Id { round, digest: random.bytes(), author: random.bytes() }, reason)
    };
    entry.certified = certified;
}

/// Soils up to `count` direct entries through a map, or through any; now and then one of them is certified.
pub fn record(scene: &mut Scene, random: &mut Random, through: Option<Through>, count: usize) {
    let (round, prev) = (scene.round(), scene.prev());
    let mut places: Vec<usize> = (0..direct_count(scene))
        .filter(|place| {
            let id = scene.entries[*place].state.id();
            let of_map = through.is_none_or(|map| id.is_some_and(|id| id.round + back(map) == round));
            let version = id.is_some_and(|id| is_version(&scene.point, id));
            of_map && !version && id.copied() != prev
        })
        .collect();
    random.shuffle(&mut places);
    for place in places.into_iter().take(count) {
        let certified = random.chance(1, 6);
        soil(scene, random, place, certified);
    }
    if random.chance(1, 8)
        && let Some(prev) = prev
        && let Some(place) = scene.place(&prev)
    {
        soil(scene, random, place, true);
    }
}

pub fn record_target(scene: &mut Scene, random: &mut Random, role: AnchorStageRole) {
    let certified = random.chance(1, 8);
    if let Some(place) = scene.entries.iter().position(|entry| entry.indirect == Some(role)) {
        soil(scene, random, place, certified);
    }
}

/// An entry that is no dependency: another digest, author or round; or one too many of the author.
pub fn foreign_entry(scene: &mut Scene, random: &mut Random) {
    let place = random.below(direct_count(scene).max(1));
    let Some(mut id) = scene.entries.get(place).and_then(|entry| entry.state.id().copied()) else { return };
    match random.below(4) {
        0 => id.digest[31] ^= 1,
        1 => id.author[0] ^= 1,
        2 => id.round -= 1,
        _ => id = Id { round: scene.round() - 1, author: scene.point.id.author, digest: random.bytes() },
    }
    let entry = Entry { indirect: None, certified: true, first_valid: false, state: State::NotFound(id) };
    if random.chance(1, 2) {
        scene.entries[place] = entry;
    } else {
        scene.entries.insert(place, entry);
    }
}

/// An indirect entry twice, of the wrong role, or of another point.
pub fn indirect_fault(scene: &mut Scene, random: &mut Random) {
    let Some(mut entry) = scene.entries.last().filter(|entry| entry.indirect.is_some()).cloned() else { return };
    match random.below(4) {
        0 => {}
        1 => entry.indirect = entry.indirect.map(|role| if role == Proof { Trigger } else { Proof }),
        2 => entry.state = State::Dropped,
        _ => {
            if let Some(point) = state_point(&mut entry.state) {
                point.id.digest[0] ^= 1;
            }
        }
    }
    if random.chance(1, 2) {
        scene.entries.pop();
    }
    scene.entries.push(entry);
}

pub fn uncover(scene: &mut Scene) {
    if let Some(place) = scene.prev().and_then(|prev| scene.place(&prev)) {
        scene.entries[place].certified = false;
    }
}

/// A listed round, time or root outside the domain, or a direct link that names no peer.
pub fn entry_out_of_domain(scene: &mut Scene, random: &mut Random) {
    let place = random.below(scene.entries.len().max(1));
    let Some(entry) = scene.entries.get_mut(place) else { return };
    let Some(point) = state_point(&mut entry.state) else { return };
    match random.below(5) {
        0 => point.time = i64::MAX as u64 + 1,
        1 => point.anchor_time = u64::MAX,
        2 => point.anchor_proof = AnchorLink { peer: random.bytes(), to: None, ..point.anchor_proof },
        3 => {
            let root = Id { round: random.pick(&[3, 2_147_483_648]), ..point.id };
            entry.state = State::TransInvalid(point.clone(), root, 4);
        }
        _ => point.anchor_trigger = AnchorLink { peer: random.bytes(), to: None, ..point.anchor_trigger },
    }
}
