//! Points that mostly wait for certificates: of one point or of several, in one place of the list or in two.

use oracle::file::Case;
use oracle::value::{AnchorStageRole, Entry, Id};

use super::entries::{presence_two, record, record_target, version};
use super::{FREE, JUDGING, LISTED, NO_PREV, RECORDING, proof_form, trigger_form};
use crate::random::Random;
use crate::scene::{Form, Scene, Wish, above_genesis};

use AnchorStageRole::{Proof, Trigger};

/// A witness is an indirect target too.
const SEEN: Wish = Wish { trigger: Some(Form::ThroughIncludesSeen), ..proof_form(Form::ThroughIncludesSeen) };
/// So low that the genesis point is easily both targets, or a target and a witness.
const LOW: Wish =
    Wish { trigger: Some(Form::ThroughIncludes), rounds_above_genesis: Some(3), ..proof_form(Form::ThroughIncludes) };
const WISHES: [Wish; 8] = [
    FREE,
    LISTED,
    SEEN,
    proof_form(Form::ThroughIncludesSeen),
    trigger_form(Form::ThroughIncludesSeen),
    LOW,
    Wish { rounds_above_genesis: Some(2), ..SEEN },
    Wish { regular_required: Some(false), witness: true, ..NO_PREV },
];

pub fn waiting(random: &mut Random) -> Case {
    let wish = random.pick(&WISHES);
    let mut scene = above_genesis(random, &wish);
    match random.below(8) {
        0 | 1 => record(&mut scene, random, None, 1),
        2 => record(&mut scene, random, None, 3),
        3 => record_target(&mut scene, random, Proof),
        4 => record_target(&mut scene, random, Trigger),
        5 => {
            record_target(&mut scene, random, Proof);
            record_target(&mut scene, random, Trigger);
        }
        6 => soil_both_places(&mut scene, random),
        _ => (RECORDING[random.below(RECORDING.len())].change)(&mut scene, random),
    }
    if random.chance(1, 3) {
        soil_both_places(&mut scene, random);
    }
    if scene.prev().is_none() && random.chance(1, 6) {
        let skipped = random.chance(1, 2);
        version(&mut scene, random, skipped);
    }
    if random.chance(1, 12) {
        (JUDGING[random.below(JUDGING.len())].change)(&mut scene, random);
    }
    if random.chance(1, 24) {
        presence_two(&mut scene, random);
    }
    scene.judge()
}

/// The entries of a point that stands in two places: the later ones are as the first, or keep their flag, or their state.
fn soil_both_places(scene: &mut Scene, random: &mut Random) {
    let ids: Vec<Id> = scene.entries.iter().filter_map(|entry| entry.state.id().copied()).collect();
    let Some(twice) = (1..ids.len()).find(|place| ids[..*place].contains(&ids[*place])) else { return };
    let id = ids[twice];
    let target = scene.entries[twice].indirect.unwrap_or(Proof);
    record_target(scene, random, target);
    let is_of = |entry: &&mut Entry| entry.state.id() == Some(&id);
    let Some(Entry { state, certified, .. }) =
        scene.entries.iter().find(|entry| entry.indirect == Some(target)).cloned()
    else {
        return;
    };
    let (same_state, same_flag) = (random.chance(3, 4), random.chance(3, 4));
    let prev = scene.prev();
    for entry in scene.entries.iter_mut().filter(is_of) {
        if same_state {
            entry.state = state.clone();
        }
        if same_flag && prev != Some(id) {
            entry.certified = certified;
        }
    }
}
