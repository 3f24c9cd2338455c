//! Faults, and the scenes that they are put into.

mod entries;
pub mod forcing;
mod point;
pub mod waiting;

use oracle::file::Case;
use oracle::value::{AnchorStageRole, Id, PointRole, State, Through};

use crate::bytes::{Part, spoil};
use crate::random::Random;
use crate::scene::{Form, RoleWish, Scene, Wish, above_genesis, genesis, peer_set, set_link};
use entries::*;
use point::*;

use AnchorStageRole::{Proof, Trigger};

/// A fault: the scene that it asks for, and what it changes there.
struct Fault {
    wish: Wish,
    change: fn(&mut Scene, &mut Random),
    scene: Start,
}

#[derive(Clone, Copy, PartialEq)]
enum Start {
    /// A genesis point.
    Genesis,
    /// A point above genesis.
    Above,
}

const ANY: Wish = Wish {
    rounds_above_genesis: None,
    role: None,
    prev: None,
    regular_required: None,
    proof: None,
    trigger: None,
    far_proof: false,
    witness: false,
    indirect_listed: false,
    sticky: false,
};
const REGULAR: Wish = Wish { role: Some(RoleWish::Regular), ..ANY };
const PREV: Wish = Wish { prev: Some(true), ..ANY };
const NO_PREV: Wish = Wish { prev: Some(false), role: Some(RoleWish::Regular), ..ANY };
const WITNESS: Wish = Wish { witness: true, ..ANY };
const LISTED: Wish = Wish { indirect_listed: true, regular_required: Some(false), ..REGULAR };
/// No regular point is required, so that every role is judged to the end.
const FREE: Wish = Wish { regular_required: Some(false), ..ANY };

const fn above(wish: Wish, change: fn(&mut Scene, &mut Random)) -> Fault {
    Fault { wish, change, scene: Start::Above }
}

const fn at_genesis(change: fn(&mut Scene, &mut Random)) -> Fault {
    Fault { wish: ANY, change, scene: Start::Genesis }
}

const fn stage(role: RoleWish) -> Wish {
    Wish { role: Some(role), sticky: matches!(role, RoleWish::LaterProof), ..FREE }
}

const fn proof_form(form: Form) -> Wish {
    Wish { proof: Some(form), witness: true, ..LISTED }
}

const fn trigger_form(form: Form) -> Wish {
    Wish { trigger: Some(form), witness: true, ..LISTED }
}

/// Faults of verifying.
static VERIFYING: &[Fault] = &[
    above(ANY, |scene, random| scene.settings.genesis_round = scene.round() + random.between(1, 3)),
    above(ANY, |scene, random| scene.point.id.author = random.bytes()),
    at_genesis(|scene, random| scene.point.id.digest = random.bytes()),
    at_genesis(|scene, random| {
        scene.point.payload_len = random.between(0, 1);
        scene.point.payload_bytes = random.between(0, 2);
    }),
    at_genesis(|scene, random| {
        let proof = PointRole::AnchorProof { seq_no: random.below(3) as u8, is_last: true };
        scene.point.role = random.pick(&[PointRole::Regular, PointRole::AnchorTrigger, proof]);
    }),
    at_genesis(genesis_prev),
    at_genesis(|scene, random| scene.point.anchor_time += u64::from(random.between(1, 2))),
    at_genesis(|scene, random| {
        let count = 1 + random.below(3);
        scene.point.evidence = peer_set(random, count);
    }),
    at_genesis(|scene, random| {
        let count = 1 + random.below(3);
        scene.point.witness = peer_set(random, count).into_iter().map(|peer| (peer, [7; 32])).collect();
    }),
    at_genesis(|scene, random| {
        let author = scene.point.id.author;
        let extra = random.pick(&[0, 1]);
        scene.schedule.spans[0].peers = if extra == 0 { Vec::new() } else { vec![author, [255; 32]] };
    }),
    at_genesis(add_unknown_includes),
    at_genesis(|scene, _| scene.schedule.last_known = scene.round()),
    above(ANY, |scene, random| {
        scene.point.payload_bytes = scene.settings.payload_batch_bytes + random.pick(&[0, 1, 1, 2, 70_000]);
    }),
    above(ANY, |scene, _| scene.point.role = PointRole::Genesis),
    above(PREV, |scene, _| scene.point.evidence.clear()),
    above(NO_PREV, |scene, random| {
        let others = scene.schedule.peers(scene.round()).to_vec();
        scene.point.evidence = others.into_iter().filter(|peer| *peer != scene.point.id.author).collect();
        if random.chance(1, 4) {
            scene.point.evidence.truncate(1);
        }
    }),
    above(PREV, |scene, _| insert(&mut scene.point.evidence, scene.point.id.author)),
    above(WITNESS, |scene, random| {
        let pair = (scene.point.id.author, random.bytes());
        insert(&mut scene.point.witness, pair);
    }),
    above(stage(RoleWish::Trigger), bad_proof_link),
    above(stage(RoleWish::LaterProof), bad_proof_link),
    above(Wish { proof: Some(Form::DirectIncludes), ..REGULAR }, |scene, random| {
        scene.point.anchor_proof.peer = random.bytes()
    }),
    above(Wish { proof: Some(Form::DirectWitness), ..REGULAR }, |scene, random| {
        scene.point.anchor_proof.peer = random.bytes()
    }),
    above(Wish { trigger: Some(Form::DirectIncludes), ..REGULAR }, |scene, random| {
        scene.point.anchor_trigger.peer = random.bytes()
    }),
    above(Wish { trigger: Some(Form::DirectWitness), ..REGULAR }, |scene, random| {
        scene.point.anchor_trigger.peer = random.bytes()
    }),
    above(proof_form(Form::ThroughWitness), |scene, random| bad_indirect(scene, random, Proof)),
    above(trigger_form(Form::ThroughWitness), |scene, random| bad_indirect(scene, random, Trigger)),
    above(proof_form(Form::ThroughIncludes), |scene, random| bad_indirect(scene, random, Proof)),
    above(trigger_form(Form::ThroughIncludes), |scene, random| bad_indirect(scene, random, Trigger)),
    above(ANY, |scene, random| scene.point.anchor_time = scene.point.time + u64::from(random.between(0, 1))),
    above(NO_PREV, |scene, random| {
        let proof = PointRole::AnchorProof { seq_no: random.below(2) as u8, is_last: false };
        scene.point.role = random.pick(&[PointRole::AnchorTrigger, proof]);
    }),
    above(stage(RoleWish::LaterProof), |scene, random| sticky(scene, random, 1)),
    above(stage(RoleWish::LaterProof), |scene, random| sticky(scene, random, 0)),
    above(stage(RoleWish::FirstProof), |scene, _| {
        if let PointRole::AnchorProof { is_last, .. } = &mut scene.point.role {
            *is_last = !*is_last;
        }
    }),
    above(proof_form(Form::ThroughIncludes), |scene, random| across_genesis(scene, random, Proof)),
    above(trigger_form(Form::ThroughWitness), |scene, random| across_genesis(scene, random, Trigger)),
    above(Wish { rounds_above_genesis: Some(1), ..REGULAR }, |scene, random| {
        let count = 1 + random.below(2);
        scene.point.witness = peer_set(random, count).into_iter().map(|peer| (peer, [7; 32])).collect();
    }),
    above(PREV, |scene, random| add_unknown(scene, random, 0)),
    above(ANY, |scene, random| add_unknown(scene, random, 1)),
    above(WITNESS, |scene, random| add_unknown(scene, random, 2)),
    above(ANY, |scene, random| {
        for map in 0..3 {
            add_unknown(scene, random, map);
        }
    }),
    above(proof_form(Form::ThroughIncludes), |scene, random| unknown_target(scene, random, Proof)),
    above(trigger_form(Form::ThroughIncludes), |scene, random| unknown_target(scene, random, Trigger)),
    above(PREV, |scene, _| {
        let two_f = (scene.schedule.peers(scene.round()).len() + 1) / 3 * 2;
        scene.point.evidence.truncate(two_f.saturating_sub(1).max(1));
    }),
    above(Wish { regular_required: Some(false), ..REGULAR }, lack_includes),
    above(Wish { rounds_above_genesis: Some(9), ..REGULAR }, lack_includes),
    above(ANY, |scene, random| fail(scene, random, 0)),
    above(ANY, |scene, random| fail(scene, random, 1)),
    above(ANY, |scene, random| fail(scene, random, 2)),
    above(Wish { rounds_above_genesis: Some(1), ..ANY }, |scene, random| fail(scene, random, 1)),
    above(Wish { rounds_above_genesis: Some(2), ..ANY }, |scene, random| fail(scene, random, 2)),
];

/// Faults that `check_ill_formed` finds, and numbers.
static BEFORE_LIST: &[Fault] = &[
    above(Wish { regular_required: Some(true), ..stage(RoleWish::FirstProof) }, nothing),
    above(Wish { regular_required: Some(true), ..stage(RoleWish::LaterProof) }, nothing),
    above(Wish { regular_required: Some(true), ..stage(RoleWish::Trigger) }, nothing),
    above(Wish { regular_required: Some(false), far_proof: true, prev: Some(true), ..REGULAR }, |scene, _| {
        scene.leader = 1
    }),
    above(Wish { regular_required: Some(true), far_proof: true, prev: Some(true), ..REGULAR }, |scene, _| {
        scene.leader = 1
    }),
    above(Wish { regular_required: Some(false), far_proof: true, ..NO_PREV }, |scene, _| scene.leader = 1),
    above(stage(RoleWish::FirstProof), |scene, _| scene.leader = 0),
    above(stage(RoleWish::FirstProof), near_proof),
    above(
        Wish { regular_required: Some(false), prev: Some(true), proof: Some(Form::ThroughIncludes), ..REGULAR },
        |scene, random| {
            scene.leader = 1;
            near_proof(scene, random);
        },
    ),
    above(FREE, |scene, random| scene.schedule.last_known = scene.round() + random.between(0, 4)),
    above(FREE, |scene, random| scene.schedule.last_known = scene.round() + random.between(0, 3)),
    above(ANY, out_of_domain),
    above(ANY, |scene, random| scene.peer_buffer = random.pick(&[0, 32, 8_159, 8_159, 8_159, 8_160])),
    above(ANY, settings_out_of_limits),
    above(FREE, |scene, _| scene.presence = 0),
    above(FREE, |scene, _| scene.presence = 0),
    above(FREE, |scene, _| scene.presence = 1),
    above(Wish { witness: true, ..FREE }, presence_two),
    above(Wish { witness: true, ..FREE }, presence_two),
    above(NO_PREV, |scene, random| {
        scene.point.witness.clear();
        presence_two(scene, random);
    }),
    above(FREE, |scene, random| {
        let place = random.below(scene.schedule.spans.len());
        scene.schedule.spans[place].peers = peer_set(random, 254 + place % 2);
        keep_author(scene);
    }),
];

/// Faults of one entry, each alone or with another.
static JUDGING: &[Fault] = &[
    above(FREE, drop_entry),
    above(Wish { proof: Some(Form::DirectPrev), prev: Some(true), ..LISTED }, nothing),
    above(Wish { proof: Some(Form::DirectPrev), prev: Some(true), ..LISTED }, prev_time),
    above(stage(RoleWish::Trigger), not_last_proof),
    above(Wish { prev: Some(true), regular_required: Some(true), ..REGULAR }, prev_proof),
    above(Wish { prev: Some(true), ..FREE }, prev_time),
    above(stage(RoleWish::FirstProof), other_candidate_time),
    above(stage(RoleWish::LaterProof), other_candidate_time),
    above(Wish { regular_required: Some(false), ..REGULAR }, |scene, random| proof_anchor_time(scene, random, false)),
    above(stage(RoleWish::Trigger), |scene, random| proof_anchor_time(scene, random, false)),
    above(proof_form(Form::ThroughIncludes), |scene, random| proof_anchor_time(scene, random, true)),
    above(Wish { regular_required: Some(false), ..NO_PREV }, |scene, random| version(scene, random, false)),
    above(Wish { regular_required: Some(false), ..NO_PREV }, |scene, random| version(scene, random, true)),
    above(FREE, |scene, random| future_time(scene, random, false)),
    above(LISTED, |scene, random| future_time(scene, random, true)),
    above(FREE, |scene, random| newer(scene, random, Proof)),
    above(FREE, |scene, random| newer(scene, random, Trigger)),
    above(FREE, other_stage),
    above(proof_form(Form::ThroughIncludesSeen), |scene, random| not_stage(scene, random, Proof)),
    above(trigger_form(Form::ThroughIncludesSeen), |scene, random| not_stage(scene, random, Trigger)),
    above(proof_form(Form::DirectIncludes), |scene, random| not_stage(scene, random, Proof)),
    above(trigger_form(Form::DirectWitness), |scene, random| not_stage(scene, random, Trigger)),
    above(proof_form(Form::ThroughIncludes), |scene, random| wrong_target_role(scene, random, Proof)),
    above(trigger_form(Form::ThroughIncludes), |scene, random| wrong_target_role(scene, random, Trigger)),
    above(proof_form(Form::ThroughIncludes), |scene, random| bad_path(scene, random, Proof)),
    above(trigger_form(Form::ThroughWitness), |scene, random| bad_path(scene, random, Trigger)),
    above(stage(RoleWish::LaterProof), wrong_sequence),
    above(trigger_form(Form::DirectIncludes), |scene, random| other_bound(scene, random, true)),
    above(trigger_form(Form::ThroughIncludes), |scene, random| other_bound(scene, random, false)),
    above(trigger_form(Form::ThroughIncludes), other_target_bound),
    above(FREE, |scene, random| unusable(scene, random, true)),
    above(FREE, |scene, random| unusable(scene, random, false)),
    above(LISTED, unusable_target),
];

/// Entries that make the point trans-invalid, at the window's edge or in ties.
static RECORDING: &[Fault] = &[
    above(FREE, |scene, random| record(scene, random, Some(Through::Includes), 1)),
    above(Wish { witness: true, ..FREE }, |scene, random| record(scene, random, Some(Through::Witness), 1)),
    above(FREE, |scene, random| record(scene, random, None, 3)),
    above(Wish { witness: true, ..FREE }, |scene, random| record(scene, random, None, 2)),
    above(proof_form(Form::ThroughIncludes), |scene, random| record_target(scene, random, Proof)),
    above(proof_form(Form::ThroughWitness), |scene, random| record_target(scene, random, Proof)),
    above(trigger_form(Form::ThroughIncludes), |scene, random| record_target(scene, random, Trigger)),
    above(trigger_form(Form::ThroughWitness), |scene, random| record_target(scene, random, Trigger)),
    above(LISTED, |scene, random| {
        record(scene, random, None, 2);
        record_target(scene, random, Proof);
        record_target(scene, random, Trigger);
    }),
];

/// Faults of a list against its point.
static LISTS: &[Fault] = &[
    above(FREE, |scene, random| {
        let place = random.below(scene.entries.len());
        scene.entries.remove(place);
    }),
    above(FREE, |scene, random| {
        let place = random.below(direct_count(scene).max(1));
        let twice = scene.entries[place].clone();
        scene.entries.insert(random.below(place + 1), twice);
    }),
    above(FREE, foreign_entry),
    above(LISTED, indirect_fault),
    above(Wish { prev: Some(true), ..FREE }, |scene, _| uncover(scene)),
    above(Wish { prev: Some(true), ..FREE }, |scene, random| {
        drop_entry(scene, random);
        uncover(scene);
    }),
    above(FREE, entry_out_of_domain),
    above(FREE, spare_drop),
    above(Wish { witness: true, ..FREE }, |scene, random| {
        presence_two(scene, random);
        if random.chance(1, 2) {
            foreign_entry(scene, random);
        }
    }),
    above(Wish { witness: true, ..FREE }, |scene, _| scene.presence = 2),
];

/// Two faults whose order tells rules apart.
static ORDERED: &[Fault] = &[
    above(ANY, |scene, random| {
        let back = random.between(1, 2);
        fail(scene, random, back);
        scene.point.id.author = random.bytes();
    }),
    at_genesis(|scene, random| {
        let to = Id { author: random.bytes(), ..scene.point.id };
        link_mut(&mut scene.point, random.pick(&[Proof, Trigger])).to = Some(to);
    }),
    above(NO_PREV, |scene, random| {
        scene.point.role = PointRole::AnchorTrigger;
        let count = 2 + random.below(3);
        scene.point.evidence = peer_set(random, count);
    }),
    above(Wish { witness: true, ..PREV }, |scene, random| {
        let author = scene.point.id.author;
        insert(&mut scene.point.evidence, author);
        insert(&mut scene.point.witness, (author, random.bytes()));
    }),
    at_genesis(|scene, random| {
        scene.point.anchor_time += 1;
        genesis_prev(scene, random);
    }),
    above(Wish { rounds_above_genesis: Some(1), ..NO_PREV }, |scene, random| {
        let witness = (random.bytes(), random.bytes());
        scene.point.witness = vec![witness];
        let link = link_mut(&mut scene.point, random.pick(&[Proof, Trigger]));
        (link.through, link.peer) = (Through::Witness, witness.0);
    }),
    above(FREE, |scene, random| {
        scene.schedule.last_known = scene.round() + random.between(0, 3);
        scene.point.payload_bytes = scene.settings.payload_batch_bytes + 1;
    }),
    above(proof_form(Form::ThroughIncludes), |scene, random| {
        bad_indirect(scene, random, Proof);
        unknown_target(scene, random, Trigger);
        bad_indirect(scene, random, Trigger);
    }),
    above(Wish { trigger: Some(Form::DirectIncludes), ..proof_form(Form::DirectIncludes) }, |scene, random| {
        scene.point.anchor_proof.peer = random.bytes();
        scene.point.anchor_trigger.peer = random.bytes();
    }),
    above(LISTED, |scene, random| {
        scene.entries.remove(random.below(direct_count(scene)));
        if let Some(entry) = scene.entries.iter_mut().find(|entry| entry.indirect.is_some()) {
            entry.state = State::Dropped;
        }
    }),
    above(Wish { prev: Some(true), ..FREE }, |scene, random| {
        uncover(scene);
        foreign_entry(scene, random);
    }),
    above(FREE, |scene, random| {
        foreign_entry(scene, random);
        drop_first(scene, random);
    }),
    above(FREE, |scene, random| {
        unusable(scene, random, true);
        drop_entry(scene, random);
    }),
    above(FREE, |scene, random| {
        drop_entry(scene, random);
        unusable(scene, random, false);
    }),
    above(
        Wish { witness: true, trigger: Some(Form::ThroughIncludes), ..proof_form(Form::ThroughWitness) },
        |scene, random| {
            let first = direct_count(scene);
            unusable_target(scene, random);
            if let Some(entry) = scene.entries.get_mut(first) {
                entry.state = State::Dropped;
            }
        },
    ),
    above(FREE, |scene, random| {
        let late = scene.point.time + u64::from(scene.settings.clock_skew_millis) + 1;
        let (prev, role) = (scene.prev(), random.pick(&[Proof, Trigger]));
        let Some(target) = scene.target(role) else { return };
        let to = Id { round: target.round + 1, digest: random.bytes(), author: target.author };
        let link_random = &mut Random::new(random.number(), 0);
        if let Some(point) = any_point(scene, random)
            && Some(point.id) != prev
        {
            point.time = late;
            set_link(link_random, point, role, to);
        }
    }),
    above(Wish { witness: true, ..FREE }, |scene, random| {
        presence_two(scene, random);
        unusable(scene, random, true);
    }),
    above(stage(RoleWish::FirstProof), |scene, random| proof_anchor_time(scene, random, false)),
    above(Wish { prev: Some(true), regular_required: Some(true), ..REGULAR }, prev_proof),
    above(FREE, |scene, random| {
        record(scene, random, None, 2);
        future_time(scene, random, false);
    }),
    above(FREE, tied_records),
    above(FREE, tied_records),
];

pub fn case(random: &mut Random) -> Case {
    match random.below(100) {
        0..2 => finish(genesis(random), random, 3),
        2..8 => clean(random),
        8..33 => one(random, VERIFYING, 3),
        33..36 => two_of_verifying(random),
        36..49 => one(random, BEFORE_LIST, 9),
        49..54 => one(random, ORDERED, 9),
        54..80 => one_or_two(random),
        80..90 => one(random, RECORDING, 9),
        90..96 => one(random, LISTS, 9),
        _ => broken(random),
    }
}

/// A judging case, or in one of `part` a verifying one.
fn finish(scene: Scene, random: &mut Random, part: usize) -> Case {
    if random.chance(1, part) { scene.verify() } else { scene.judge() }
}

fn clean(random: &mut Random) -> Case {
    let wish = random.pick(&[ANY, FREE]);
    let scene = above_genesis(random, &wish);
    finish(scene, random, 9)
}

fn start(random: &mut Random, fault: &Fault) -> Scene {
    match fault.scene {
        Start::Genesis => genesis(random),
        Start::Above => above_genesis(random, &fault.wish),
    }
}

fn one(random: &mut Random, faults: &[Fault], part: usize) -> Case {
    let fault = &faults[random.below(faults.len())];
    let mut scene = start(random, fault);
    (fault.change)(&mut scene, random);
    finish(scene, random, part)
}

/// Two faults of verifying in one point.
fn two_of_verifying(random: &mut Random) -> Case {
    let first = &VERIFYING[random.below(VERIFYING.len())];
    let mut scene = start(random, first);
    let others: Vec<&Fault> = VERIFYING.iter().filter(|other| other.scene == first.scene).collect();
    let second = others[random.below(others.len())];
    (first.change)(&mut scene, random);
    (second.change)(&mut scene, random);
    finish(scene, random, 3)
}

/// One fault of judging; in some cases another one of judging or recording, in the same scene.
fn one_or_two(random: &mut Random) -> Case {
    let fault = &JUDGING[random.below(JUDGING.len())];
    let mut scene = start(random, fault);
    (fault.change)(&mut scene, random);
    if random.chance(1, 4) {
        let others = if random.chance(1, 2) { JUDGING } else { RECORDING };
        let other = &others[random.below(others.len())];
        (other.change)(&mut scene, random);
    }
    if random.chance(1, 12) {
        scene.presence = random.below(4) as u8;
    }
    scene.judge()
}

/// Bytes that don't read.
fn broken(random: &mut Random) -> Case {
    let scene = above_genesis(random, &FREE);
    let part = random.pick(&[Part::Settings, Part::Schedule, Part::Record, Part::List, Part::List]);
    let mut case = if matches!(part, Part::List) { scene.judge() } else { finish(scene, random, 3) };
    spoil(random, &mut case, part);
    case
}

fn nothing(_: &mut Scene, _: &mut Random) {}
