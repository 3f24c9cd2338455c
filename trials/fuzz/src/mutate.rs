//! Other calls made of one: the format is known, so that many changes keep it readable.

use book::Offer;
use cases::random::Random;
use compare::damage::{buffer_length, damage, damage_list, flag, output_length};
use compare::kind::{as_judge, as_verify};
use hard_use::fronts::{parts, share_fronts};
use hard_use::wild::{any, joined};
use inputs::call::Call;
use oracle::arrangement::Arrangement;
use oracle::draft::Draft;
use oracle::file::Case;
use oracle::question::Question;

/// No part grows longer, so that a call stays one of microseconds.
const LONGEST: usize = 300_000;

/// A call with one to four changes; some take parts of another call.
pub fn mutated(random: &mut Random, call: &Call, other: &Call) -> Call {
    let mut call = call.clone();
    for _ in 0..random.pick(&[1, 1, 1, 2, 2, 3, 4]) {
        match random.below(16) {
            0 => change_numbers(random, &mut call),
            1 => call = another_kind(random, call),
            2 | 3 => take_part(random, &mut call, other),
            4 | 5 => copy_within(random, &mut call),
            6 => share_fronts(random, &mut call),
            _ => change_part(random, &mut call),
        }
    }
    parts(&mut call).into_iter().for_each(|part| part.truncate(LONGEST));
    call
}

fn change_part(random: &mut Random, call: &mut Call) {
    if let Call::Compose { draft, .. } = call {
        return change_draft(random, draft);
    }
    let mut parts = parts(call);
    let place = random.below(parts.len());
    let part = &mut parts[place];
    match random.below(24) {
        0 => **part = any(random),
        1..8 => damage_list(random, part),
        _ => damage(random, part),
    }
}

/// A map's rows exchanged or repeated, its end cut off or added to; any byte of an id or a link.
fn change_draft(random: &mut Random, draft: &mut Draft) {
    let place = random.below(68);
    let bytes = match random.below(8) {
        0 => &mut draft.id[..],
        1 => &mut draft.anchor_proof[..],
        2 => &mut draft.anchor_trigger[..],
        _ => return change_map(random, draft),
    };
    let place = random.pick(&[0, 1, 2, 3, place]);
    bytes[place] = flag(random);
}

fn change_map(random: &mut Random, draft: &mut Draft) {
    let maps = [&mut draft.includes, &mut draft.witness, &mut draft.evidence];
    let map = maps.into_iter().nth(random.below(3)).expect("one of three");
    let bytes = random.pick(&[1, 31, 32, 63, 64]);
    let (blocks, _) = map.as_chunks_mut::<32>();
    match random.below(8) {
        0 => map.truncate(map.len().saturating_sub(bytes)),
        1 => map.resize(map.len() + bytes, random.number() as u8),
        2 => map.extend_from_within(..),
        _ if blocks.is_empty() => *map = any(random),
        3 | 4 => blocks[random.below(blocks.len())] = blocks[random.below(blocks.len())],
        5 | 6 => blocks.swap(random.below(blocks.len()), random.below(blocks.len())),
        _ => blocks[random.below(blocks.len())][random.below(32)] = flag(random),
    }
}

/// A part of the other call, whole or joined to this one's.
fn take_part(random: &mut Random, call: &mut Call, other: &Call) {
    let mut other = other.clone();
    let (mut parts, mut others) = (parts(call), parts(&mut other));
    let place = random.below(parts.len().min(others.len()));
    let (part, other) = (&mut parts[place], &mut others[place]);
    if random.chance(1, 2) {
        std::mem::swap(*part, *other);
    } else {
        **part = joined(random, part, other);
    }
}

/// Some bytes of a part over those of another, or of the same one: ids, peers and rounds that are equal.
fn copy_within(random: &mut Random, call: &mut Call) {
    let mut parts = parts(call);
    let (from, to) = (random.below(parts.len()), random.below(parts.len()));
    let length = random.pick(&[1, 4, 8, 32, 32, 32, 36, 64, 68]);
    if parts[from].len() < length || parts[to].len() < length {
        return;
    }
    let start = random.below(parts[from].len() - length + 1);
    let copied = parts[from][start..start + length].to_vec();
    // half of the time to where a field's content begins, as an id's round does
    let target = parts[to].len() - length;
    let target = if random.chance(1, 2) { target.min(3) } else { random.below(target + 1) };
    parts[to][target..target + length].copy_from_slice(&copied);
}

fn change_numbers(random: &mut Random, call: &mut Call) {
    match call {
        Call::Case(Case::Verify { peer_buffer, .. }) | Call::Trail { case: Case::Verify { peer_buffer, .. }, .. } => {
            *peer_buffer = buffer_length(random);
        }
        Call::Trail { length, .. } | Call::Force { length, .. } if random.chance(1, 2) => *length = random.below(64),
        Call::Case(Case::Judge { leader, presence, peer_buffer, .. })
        | Call::Trail { case: Case::Judge { leader, presence, peer_buffer, .. }, .. } => match random.below(4) {
            0 => *peer_buffer = buffer_length(random),
            1 => *leader = flag(random),
            2 => *leader ^= 1,
            _ => *presence = flag(random),
        },
        Call::Clearing(Question { leader, presence, .. })
        | Call::Force { question: Question { leader, presence, .. }, .. } => match random.below(3) {
            0 => *leader = flag(random),
            1 => *leader ^= 1,
            _ => *presence = flag(random),
        },
        Call::Open { length, .. } => *length = random.below(200),
        Call::Convert { record, length, .. } => *length = output_length(random, record.len()),
        Call::Compose { draft, length } => match random.below(4) {
            0 => *length = output_length(random, draft.composed(usize::MAX).map_or(0, |record| record.len())),
            1 => draft.role = flag(random),
            2 => draft.is_last = flag(random),
            _ => (draft.time, draft.anchor_time) = (random.number() >> random.below(3), random.number() >> 1),
        },
        Call::Offer { offer, .. } => match random.below(3) {
            0 => offer.peer_buffer = buffer_length(random),
            1 => offer.leader = flag(random),
            _ => offer.leader ^= 1,
        },
    }
}

/// The same bytes to another of the calls. An offer's book is then the case's settings, with some zeros after. A record that is
/// converted goes to the other converter, and one that is composed to either.
fn another_kind(random: &mut Random, call: Call) -> Call {
    match call {
        Call::Case(Case::Verify { record, .. }) if random.chance(1, 2) => {
            let length = output_length(random, record.len());
            match Draft::of_record(&record).filter(|_| random.chance(1, 2)) {
                Some(draft) => Call::Compose { draft: Box::new(draft), length },
                None => Call::Convert { from: random.pick(&Arrangement::ALL), record, length },
            }
        }
        Call::Case(case @ Case::Verify { .. }) => Call::Case(as_judge(case)),
        Call::Case(case @ Case::Judge { .. }) if random.chance(1, 2) => asking(random, case),
        Call::Trail { case, .. } => Call::Case(case),
        Call::Clearing(question) | Call::Force { question, .. } => Call::Case(question.judging(question.list.clone())),
        Call::Case(case) if random.chance(1, 2) => Call::Case(as_verify(case)),
        Call::Case(Case::Judge { settings, schedule, record, leader, peer_buffer, .. }) => {
            let mut book = settings;
            book.resize(book.len() + record.len() + 108, 0);
            Call::Offer { book: Some(book), offer: Offer { schedule, leader, record, peer_buffer } }
        }
        Call::Open { settings, length } => Call::Open { settings, length },
        Call::Convert { from, record, length } => Call::Convert { from: from.other(), record, length },
        Call::Compose { draft, length } => match draft.composed(length) {
            Ok(record) => Call::Convert { from: random.pick(&Arrangement::ALL), record, length },
            Err(_) => Call::Compose { draft, length },
        },
        Call::Offer { book, offer: Offer { schedule, leader, record, peer_buffer } } => {
            let settings = book.unwrap_or_default().into_iter().take(book::SETTINGS).collect();
            Call::Case(Case::Judge { settings, schedule, record, leader, presence: 3, list: Vec::new(), peer_buffer })
        }
    }
}

/// A judge case to one of the calls that are lent what judging is.
fn asking(random: &mut Random, case: Case) -> Call {
    let (which, length) = (random.below(3), random.below(64));
    match Question::of(case.clone()) {
        Some(question) if which == 0 => Call::Clearing(question),
        Some(question) if which == 1 => Call::Force { question, length },
        _ => Call::Trail { case, length },
    }
}
