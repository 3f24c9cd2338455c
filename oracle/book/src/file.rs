//! The cases of a file that have a book: kinds 3 to 7 of docs/FORMAT.md, "Files of cases".

use oracle::arrangement::{Arrangement, move_feed, move_maps};
use oracle::file::{self, Blobs, JUDGE, VERIFY};

use crate::Offer;

pub const OPEN: u8 = 3;
pub const BEGIN: u8 = 4;
pub const OFFER: u8 = 5;
pub const OFFER_TO: u8 = 6;
const TALLY: u8 = 7;
/// A batch of records to the book begun by 4: no call that there is.
const BATCH: u8 = 24;

/// A case with its answer.
#[derive(Clone, PartialEq, Eq)]
pub enum Case {
    Open {
        settings: Vec<u8>,
        length: usize,
        number: u8,
    },
    /// The offers that follow go to this book.
    Begin {
        settings: Vec<u8>,
        length: usize,
        number: u8,
    },
    Offer {
        offer: Offer,
        after: After,
    },
    OfferTo {
        book: Vec<u8>,
        offer: Offer,
        after: After,
    },
    Tally {
        input: Vec<u8>,
        output: Vec<u8>,
    },
}

/// What an offer leaves.
#[derive(Clone, PartialEq, Eq)]
pub struct After {
    pub sha256: Vec<u8>,
    pub answer: Vec<u8>,
}

impl Case {
    /// Its answer alone: an opening's number, an offer's answer, or what `tally` prints.
    pub fn answer(&self) -> &[u8] {
        match self {
            Self::Open { number, .. } | Self::Begin { number, .. } => std::slice::from_ref(number),
            Self::Offer { after, .. } | Self::OfferTo { after, .. } => &after.answer,
            Self::Tally { output, .. } => output,
        }
    }

    /// The case as a file holds it.
    pub fn write(&self, out: &mut Vec<u8>) {
        match self {
            Self::Open { settings, length, number } => write_opening(OPEN, settings, *length, *number, out),
            Self::Begin { settings, length, number } => write_opening(BEGIN, settings, *length, *number, out),
            Self::Offer { offer, after } => write_offer(OFFER, None, offer, after, out),
            Self::OfferTo { book, offer, after } => write_offer(OFFER_TO, Some(book), offer, after, out),
            Self::Tally { input, output } => file::write(TALLY, &[input, output], out),
        }
    }
}

fn write_opening(kind: u8, settings: &[u8], length: usize, number: u8, out: &mut Vec<u8>) {
    file::write(kind, &[settings, &(length as u32).to_le_bytes(), &[number]], out);
}

fn write_offer(kind: u8, book: Option<&Vec<u8>>, offer: &Offer, after: &After, out: &mut Vec<u8>) {
    let Offer { schedule, leader, record, peer_buffer } = offer;
    let inputs = [schedule, &[*leader][..], record, &peer_buffer.to_le_bytes(), &after.sha256, &after.answer];
    let book = book.map(Vec::as_slice);
    file::write(kind, &book.into_iter().chain(inputs).collect::<Vec<_>>(), out);
}

/// A file of pairs, with the maps of all that its cases of kinds 1 to 7 are lent moved. Answers stay, and so does a book's sha256,
/// which is that of the book before it is moved. `None` if it isn't whole.
pub fn moved(bytes: &[u8]) -> Option<Vec<u8>> {
    let mut out = Vec::with_capacity(bytes.len());
    for (kind, blobs) in file::blobs(bytes)? {
        let moved: Vec<Vec<u8>> = blobs.iter().enumerate().map(|(place, blob)| moved_blob(kind, place, blob)).collect();
        file::write(kind, &moved.iter().map(Vec::as_slice).collect::<Vec<_>>(), &mut out);
    }
    Some(out)
}

fn moved_blob(kind: u8, place: usize, blob: &[u8]) -> Vec<u8> {
    let mut blob = blob.to_vec();
    match (kind, place) {
        (VERIFY | JUDGE | OFFER, 2) | (JUDGE, 4) | (OFFER_TO, 0 | 3) => move_maps(&mut blob, Arrangement::Columns),
        (TALLY, 0) => move_feed(&mut blob, Arrangement::Columns),
        _ => {}
    }
    blob
}

/// The cases of these kinds. Others are passed over, and so are offers to a book after a batch. `None` if one of them isn't
/// laid out so.
pub fn read(blobs: Vec<Blobs<'_>>) -> Option<Vec<Case>> {
    let mut met_batch = false;
    let booked = blobs.into_iter().filter(|(kind, _)| {
        met_batch = *kind == BATCH || (met_batch && *kind != BEGIN);
        (OPEN..=TALLY).contains(kind) && !(met_batch && *kind == OFFER)
    });
    booked.map(|(kind, blobs)| case(kind, &blobs)).collect()
}

fn case(kind: u8, blobs: &[&[u8]]) -> Option<Case> {
    Some(match (kind, blobs) {
        (OPEN, [settings, length, answer]) => {
            let (length, number) = opened(length, answer)?;
            Case::Open { settings: settings.to_vec(), length, number }
        }
        (BEGIN, [settings, length, answer]) => {
            let (length, number) = opened(length, answer)?;
            Case::Begin { settings: settings.to_vec(), length, number }
        }
        (OFFER, [inputs @ .., sha256, answer]) => Case::Offer { offer: offer(inputs)?, after: after(sha256, answer) },
        (OFFER_TO, [book, inputs @ .., sha256, answer]) => {
            Case::OfferTo { book: book.to_vec(), offer: offer(inputs)?, after: after(sha256, answer) }
        }
        (TALLY, [input, output]) => Case::Tally { input: input.to_vec(), output: output.to_vec() },
        _ => return None,
    })
}

fn opened(length: &[u8], answer: &[u8]) -> Option<(usize, u8)> {
    let [number] = answer.try_into().ok()?;
    Some((u32::from_le_bytes(length.try_into().ok()?) as usize, number))
}

fn offer(inputs: &[&[u8]]) -> Option<Offer> {
    let [schedule, leader, record, buffer] = *inputs else { return None };
    let [leader] = leader.try_into().ok()?;
    let peer_buffer = u32::from_le_bytes(buffer.try_into().ok()?);
    Some(Offer { schedule: schedule.to_vec(), leader, record: record.to_vec(), peer_buffer })
}

fn after(sha256: &[u8], answer: &[u8]) -> After {
    After { sha256: sha256.to_vec(), answer: answer.to_vec() }
}
