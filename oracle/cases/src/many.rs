//! Judge cases by seed whose entries give many reasons.

use oracle::file::Case;
use oracle::numbers::in_domain;
use oracle::value::{AnchorLink, Entry, Id, Point, PointRole, State};
use oracle::{read, write};

use crate::random::Random;

/// The judge case of this seed at this place: that of `crate::case`, mostly with changes in a part of its entries or in all. A verify
/// case has an empty list, all rounds present and another leader.
pub fn case(seed: u64, place: u64) -> Case {
    let random = &mut Random::new(!seed, place);
    let mut case = match crate::case(seed, place) {
        Case::Verify { settings, schedule, record, peer_buffer } => {
            Case::Judge { settings, schedule, record, leader: 0, presence: 3, list: Vec::new(), peer_buffer }
        }
        judge => judge,
    };
    if let Case::Judge { record, list, .. } = &mut case
        && random.chance(7, 8)
        && let (Some(point), Some(mut entries)) = (read::record(record), read::list(list))
        && in_domain(&point)
    {
        change(random, &point, &mut entries);
        *list = write::list(&entries);
    }
    case
}

/// Ids stay, and so does the order of the two kinds, so that the list still matches the point.
fn change(random: &mut Random, point: &Point, entries: &mut Vec<Entry>) {
    let part = random.pick(&[1, 2, 4, 8]);
    let direct = entries.partition_point(|entry| entry.indirect.is_none());
    let only_indirect = direct < entries.len() && random.chance(1, 2);
    for entry in entries.iter_mut().skip(if only_indirect { direct } else { 0 }) {
        if random.chance(part, 8) {
            change_entry(random, point, entry);
        }
    }
    if only_indirect {
        return;
    }
    if random.chance(1, 2) {
        random.shuffle(&mut entries[..direct]);
    }
    for _ in 0..random.pick(&[0, 0, 0, 1, 2]) {
        let dropped = Entry { indirect: None, certified: false, first_valid: false, state: State::Dropped };
        entries.insert(random.below(direct + 1), dropped);
    }
}

fn change_entry(random: &mut Random, point: &Point, entry: &mut Entry) {
    let Some(id) = entry.state.id().copied() else { return };
    entry.certified |= random.chance(1, 4);
    entry.first_valid |= random.chance(1, 4);
    match random.below(8) {
        0 => entry.state = State::NotFound(id),
        1 => entry.state = State::IllFormed(id, random.between(1, 16) as u8),
        2 if random.chance(1, 3) => entry.state = State::Dropped,
        _ => {
            if let State::Valid(of) | State::TransInvalid(of, _, _) | State::Invalid(of, _) = &mut entry.state {
                change_point(random, point, of);
            }
        }
    }
}

/// Each field may be changed, so that a point can give all reasons that stand beside one another.
fn change_point(random: &mut Random, judged: &Point, point: &mut Point) {
    let greatest = i64::MAX as u64;
    if random.chance(1, 2) {
        point.time = judged.time.saturating_add(random.pick(&[0, 1, 65_536])).min(greatest);
    }
    if random.chance(1, 2) {
        point.anchor_time = (point.anchor_time + 1).min(greatest);
    }
    if random.chance(1, 2) {
        let (seq_no, is_last) = (random.below(4) as u8, random.chance(1, 2));
        let roles = [PointRole::Regular, PointRole::AnchorTrigger, PointRole::AnchorProof { seq_no, is_last }];
        point.role = random.pick(&roles);
    }
    let below = point.id.round.min(judged.id.round);
    for link in [&mut point.anchor_proof, &mut point.anchor_trigger] {
        if random.chance(1, 2) {
            relink(random, below, link);
        }
    }
}

/// To another point, mostly one that is newer than the link's target was.
fn relink(random: &mut Random, round: u32, link: &mut AnchorLink) {
    let round = round - random.between(0, 3.min(round));
    link.to = Some(Id { round, digest: random.bytes(), author: random.bytes() });
}
