//! Offers to small books that no feed left: of a case's settings and points, in any state, then damaged or not.

use book::{Entry, Offer, Root, State};
use cases::random::Random;
use compare::damage::{buffer_length, damage, flag};
use compare::kind::as_judge;
use inputs::call::Call;
use oracle::file::Case;
use oracle::value::{Id, Through};
use oracle::{PEER_BUFFER, read};

use crate::wild::{any, joined};

/// Entries of a book at most.
const MOST: usize = 12;

/// The point of the case at this place, offered to a book of its list's points, and to a damaged copy.
pub fn offers(random: &mut Random, seed: u64, place: u64) -> Vec<Call> {
    let Case::Judge { settings, schedule, record, leader, list, .. } = as_judge(cases::case(seed, place)) else {
        unreachable!("it is a judge case")
    };
    let book = book(random, &settings, &list, record.len());
    let offer = Offer { schedule, leader, record, peer_buffer: PEER_BUFFER };
    let mut other = Call::Offer { book: Some(book.clone()), offer: offer.clone() };
    spoil(random, &mut other);
    vec![Call::Offer { book: Some(book), offer }, other]
}

/// Settings, the records that stand in a list, each once, and zeros: with room for one record more, or nearly.
fn book(random: &mut Random, settings: &[u8], list: &[u8], record: usize) -> Vec<u8> {
    let mut bytes = settings.to_vec();
    let mut kept: Vec<Id> = Vec::new();
    for bytes_of_record in records(list).into_iter().take(MOST) {
        let Some((point, _)) = read::record_front(&bytes_of_record) else { continue };
        if !kept.contains(&point.id) && !random.chance(1, 10) {
            kept.push(point.id);
            let (certified, state) = (random.chance(1, 3), state(random, point.id));
            Entry { record: bytes_of_record, id: point.id, certified, state }.write(&mut bytes);
        }
    }
    let room = record + 108;
    let spare = random.pick(&[room, room, room + 1, room - 1, room + 700, 0]);
    bytes.resize(bytes.len() + spare, 0);
    bytes
}

/// The records in a list: from a tag 1 to the end of the tag 9 after it.
fn records(list: &[u8]) -> Vec<Vec<u8>> {
    let (mut records, mut rest) = (Vec::new(), list);
    while let Some(head) = rest.first_chunk::<3>() {
        if head[0] == 1
            && let Some((_, after)) = read::record_front(rest)
        {
            records.push(rest[..rest.len() - after.len()].to_vec());
            rest = after;
            continue;
        }
        let length = 3 + usize::from(u16::from_le_bytes([head[1], head[2]]));
        rest = rest.get(length..).unwrap_or_default();
    }
    records
}

/// Mostly valid.
fn state(random: &mut Random, id: Id) -> State {
    let reason = random.between(1, 20) as u8;
    let through = random.pick(&[Through::Includes, Through::Witness]);
    match random.below(12) {
        0 | 1 => State::TransInvalid(Root { id, reason, through, peer: id.author }),
        2 => State::Invalid(reason),
        3 => State::IllFormed(reason.min(16)),
        _ => State::Valid,
    }
}

/// One of the parts is damaged, spliced, or any bytes.
fn spoil(random: &mut Random, call: &mut Call) {
    let Call::Offer { book: Some(book), offer } = call else { return };
    match random.below(8) {
        0 => *book = joined(random, book, &offer.record),
        1 => *book = any(random),
        2 => offer.peer_buffer = buffer_length(random),
        3 => offer.leader = flag(random),
        4 => damage(random, &mut offer.record),
        5 => damage(random, &mut offer.schedule),
        _ => (0..random.between(1, 3)).for_each(|_| damage(random, book)),
    }
}
