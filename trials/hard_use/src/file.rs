//! Calls in files, laid out as docs/FORMAT.md says, without the answers.

use book::Offer;
use inputs::call::Call;
use oracle::arrangement::Arrangement;
use oracle::clearing::CLEARING;
use oracle::draft::{COMPOSE, Draft};
use oracle::file::{Blobs, Case, JUDGE, VERIFY};
use oracle::forcing::FORCE;
use oracle::question::Question;
use trail::TRAIL;

const OPEN: u8 = 3;
const OFFER_TO: u8 = 6;
const CONVERT: u8 = 17;
/// Blobs of a judge case, without its answer.
const JUDGED: usize = 6;

/// The bytes of a call; an offer needs its book.
pub fn write(call: &Call) -> Vec<u8> {
    let number = |number: u32| number.to_le_bytes();
    match call {
        Call::Case(Case::Verify { settings, schedule, record, peer_buffer }) => {
            blobs(VERIFY, &[settings, schedule, record, &number(*peer_buffer)])
        }
        Call::Case(Case::Judge { settings, schedule, record, leader, presence, list, peer_buffer }) => {
            blobs(JUDGE, &[settings, schedule, record, &[*leader, *presence], list, &number(*peer_buffer)])
        }
        Call::Open { settings, length } => blobs(OPEN, &[settings, &number(*length as u32)]),
        Call::Offer { book, offer: Offer { schedule, leader, record, peer_buffer } } => {
            let book = book.as_deref().unwrap_or_default();
            blobs(OFFER_TO, &[book, schedule, &[*leader], record, &number(*peer_buffer)])
        }
        Call::Convert { from, record, length } => blobs(CONVERT, &[&[*from as u8], record, &number(*length as u32)]),
        Call::Compose { draft, length } => {
            let (parts, length) = (draft.blobs(), number(*length as u32));
            let all = parts.iter().map(Vec::as_slice).chain([&length[..]]);
            blobs(COMPOSE, &all.collect::<Vec<_>>())
        }
        Call::Trail { case, length } => {
            let ((_, inputs), length) = (case.blobs(), number(*length as u32));
            let all = inputs.iter().map(Vec::as_slice).chain([&length[..]]);
            blobs(TRAIL, &all.collect::<Vec<_>>())
        }
        Call::Clearing(question) => blobs(CLEARING, &question.blobs().each_ref().map(Vec::as_slice)),
        Call::Force { question, length } => {
            let (inputs, length) = (question.blobs(), number(*length as u32));
            let all = inputs.iter().map(Vec::as_slice).chain([&length[..]]);
            blobs(FORCE, &all.collect::<Vec<_>>())
        }
    }
}

fn blobs(kind: u8, blobs: &[&[u8]]) -> Vec<u8> {
    let mut out = vec![kind, blobs.len() as u8];
    for blob in blobs {
        out.extend((blob.len() as u32).to_le_bytes());
        out.extend(*blob);
    }
    out
}

/// A call of a file; answers after it are passed over. None of another kind, or if it isn't laid out so.
pub fn read((kind, blobs): &Blobs<'_>) -> Option<Call> {
    Some(match (*kind, &blobs[..]) {
        (VERIFY, [settings, schedule, record, peer_buffer, ..]) => Call::Case(Case::Verify {
            settings: settings.to_vec(),
            schedule: schedule.to_vec(),
            record: record.to_vec(),
            peer_buffer: number(peer_buffer)?,
        }),
        (JUDGE, [settings, schedule, record, [leader, presence], list, peer_buffer, ..]) => Call::Case(Case::Judge {
            settings: settings.to_vec(),
            schedule: schedule.to_vec(),
            record: record.to_vec(),
            leader: *leader,
            presence: *presence,
            list: list.to_vec(),
            peer_buffer: number(peer_buffer)?,
        }),
        (TRAIL, [judged @ .., length, _]) | (TRAIL, [judged @ .., length]) if judged.len() == JUDGED => {
            let Call::Case(case) = read(&(JUDGE, judged.to_vec()))? else { return None };
            Call::Trail { case, length: number(length)? as usize }
        }
        (OPEN, [settings, length, ..]) => Call::Open { settings: settings.to_vec(), length: number(length)? as usize },
        (OFFER_TO, [book, schedule, [leader], record, peer_buffer, ..]) => Call::Offer {
            book: Some(book.to_vec()),
            offer: Offer {
                schedule: schedule.to_vec(),
                leader: *leader,
                record: record.to_vec(),
                peer_buffer: number(peer_buffer)?,
            },
        },
        (CONVERT, [[from], record, length, ..]) => Call::Convert {
            from: *Arrangement::ALL.get(usize::from(*from))?,
            record: record.to_vec(),
            length: number(length)? as usize,
        },
        (CLEARING, blobs) => Call::Clearing(Question::of_blobs(*blobs.first_chunk()?)?),
        (FORCE, blobs) => {
            let (inputs, [length, ..]) = blobs.split_first_chunk()? else { return None };
            Call::Force { question: Question::of_blobs(*inputs)?, length: number(length)? as usize }
        }
        (COMPOSE, blobs) => {
            let (parts, [length, ..]) = blobs.split_first_chunk()? else { return None };
            Call::Compose { draft: Box::new(Draft::of_blobs(*parts)?), length: number(length)? as usize }
        }
        _ => return None,
    })
}

fn number(bytes: &[u8]) -> Option<u32> {
    bytes.try_into().ok().map(u32::from_le_bytes)
}
