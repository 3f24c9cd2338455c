//! Peers and digests that are alike at their front: ids are compared word by word, and random ones part in the first.

use cases::random::Random;
use compare::damage::fields;
use inputs::call::Call;
use oracle::file::Case;

/// Shifts every peer and digest of a call after the same bytes, as many for all: what was equal stays equal, and what
/// was in order stays in order unless too little of it is left.
pub fn share_fronts(random: &mut Random, call: &mut Call) {
    let length = random.pick(&[1, 4, 7, 8, 8, 9, 15, 16, 16, 17, 23, 24, 24, 25, 28, 30]);
    let byte = random.pick(&[0, 0, 1, 127, 128, 255]);
    if let Call::Compose { draft, .. } = call {
        let shift = |tag, content: &mut [u8]| shift_all(tag, content, length, byte);
        shift(1, &mut draft.id);
        [&mut draft.includes, &mut draft.witness, &mut draft.evidence].into_iter().for_each(|map| shift(3, map));
        [&mut draft.anchor_proof, &mut draft.anchor_trigger].into_iter().for_each(|link| shift(6, link));
        return;
    }
    for part in parts(call) {
        let found = fields(part);
        for field in found {
            let content = &mut part[field.content()..field.end()];
            shift_all(field.tag, content, length, byte);
        }
    }
}

/// All that is lent with fields in it, or the maps of a point in parts.
pub fn parts(call: &mut Call) -> Vec<&mut Vec<u8>> {
    match call {
        Call::Case(case) | Call::Trail { case, .. } => match case {
            Case::Verify { settings, schedule, record, .. } => vec![settings, schedule, record],
            Case::Judge { settings, schedule, record, list, .. } => vec![settings, schedule, record, list],
        },
        Call::Clearing(question) | Call::Force { question, .. } => {
            vec![&mut question.settings, &mut question.schedule, &mut question.record, &mut question.list]
        }
        Call::Open { settings, .. } => vec![settings],
        Call::Convert { record, .. } => vec![record],
        Call::Compose { draft, .. } => vec![&mut draft.includes, &mut draft.witness, &mut draft.evidence],
        Call::Offer { book, offer } => vec![book.get_or_insert_default(), &mut offer.schedule, &mut offer.record],
    }
}

fn shift_all(tag: u8, content: &mut [u8], length: usize, byte: u8) {
    let rows = |first: usize| (first..content.len()).step_by(32).collect();
    let places: Vec<usize> = match tag {
        1 | 17 | 18 => vec![4, 36],
        3..=5 => rows(0),
        6 | 7 => vec![2, 38, 70],
        32 => vec![4],
        // without a root there are zeros
        33 if content.first() == Some(&1) => vec![7, 39, 73],
        34 => rows(4),
        _ => Vec::new(),
    };
    for place in places {
        if let Some(string) = content.get_mut(place..place + 32) {
            string.rotate_right(length);
            string[..length].fill(byte);
        }
    }
}
