//! The C calls on what a desk lends. Each length is that of the buffer before it, and buffers don't overlap.

use book::Offer;
use inputs::call::{Call, Lent};
use oracle::arrangement::Arrangement;
use oracle::draft::Draft;
use oracle::file::Case;
use oracle::question::Question;
use wutherdish_sys::{
    ANSWER, wutherdish_clearing, wutherdish_columns_to_pairs, wutherdish_force, wutherdish_judge, wutherdish_offer,
    wutherdish_open, wutherdish_pairs_to_columns, wutherdish_trail, wutherdish_verify, wutherdish_write,
};

use crate::desk::Desk;

pub fn call(desk: &Desk, call: &Call) -> u8 {
    match call {
        Call::Case(Case::Verify { .. }) => verify(desk),
        Call::Case(Case::Judge { leader, presence, .. }) => judge(desk, *leader, *presence),
        Call::Open { .. } => open(desk),
        Call::Offer { offer: Offer { leader, .. }, .. } => offer(desk, *leader),
        Call::Convert { from, .. } => convert(desk, *from),
        Call::Compose { draft, .. } => write(desk, draft),
        Call::Trail { case: Case::Judge { leader, presence, .. }, .. } => trail(desk, *leader, *presence),
        Call::Trail { case: Case::Verify { .. }, .. } => unreachable!("a case that is judged"),
        Call::Clearing(Question { leader, presence, .. }) => clearing(desk, *leader, *presence),
        Call::Force { question: Question { leader, presence, .. }, .. } => force(desk, *leader, *presence),
    }
}

fn at(desk: &Desk, lent: Lent) -> *mut u8 {
    desk.buffer(lent).pointer()
}

fn len(desk: &Desk, lent: Lent) -> usize {
    desk.buffer(lent).len()
}

fn answer(desk: &Desk) -> *mut [u8; ANSWER] {
    at(desk, Lent::Answer).cast()
}

fn verify(desk: &Desk) -> u8 {
    // SAFETY: as said above.
    unsafe {
        wutherdish_verify(
            at(desk, Lent::Settings),
            len(desk, Lent::Settings),
            at(desk, Lent::Schedule),
            len(desk, Lent::Schedule),
            at(desk, Lent::Record),
            len(desk, Lent::Record),
            at(desk, Lent::Peers),
            len(desk, Lent::Peers),
            answer(desk),
        )
    }
}

fn judge(desk: &Desk, leader: u8, presence: u8) -> u8 {
    // SAFETY: as said above.
    unsafe {
        wutherdish_judge(
            at(desk, Lent::Settings),
            len(desk, Lent::Settings),
            at(desk, Lent::Schedule),
            len(desk, Lent::Schedule),
            at(desk, Lent::Record),
            len(desk, Lent::Record),
            leader,
            presence,
            at(desk, Lent::List),
            len(desk, Lent::List),
            at(desk, Lent::Peers),
            len(desk, Lent::Peers),
            answer(desk),
        )
    }
}

fn trail(desk: &Desk, leader: u8, presence: u8) -> u8 {
    // SAFETY: as said above; a count touches the start or the end of a page, so that it is aligned.
    unsafe {
        wutherdish_trail(
            at(desk, Lent::Settings),
            len(desk, Lent::Settings),
            at(desk, Lent::Schedule),
            len(desk, Lent::Schedule),
            at(desk, Lent::Record),
            len(desk, Lent::Record),
            leader,
            presence,
            at(desk, Lent::List),
            len(desk, Lent::List),
            at(desk, Lent::Peers),
            len(desk, Lent::Peers),
            at(desk, Lent::Output),
            len(desk, Lent::Output),
            at(desk, Lent::Count).cast(),
            answer(desk),
        )
    }
}

fn clearing(desk: &Desk, leader: u8, presence: u8) -> u8 {
    // SAFETY: as said above.
    unsafe {
        wutherdish_clearing(
            at(desk, Lent::Settings),
            len(desk, Lent::Settings),
            at(desk, Lent::Schedule),
            len(desk, Lent::Schedule),
            at(desk, Lent::Record),
            len(desk, Lent::Record),
            leader,
            presence,
            at(desk, Lent::List),
            len(desk, Lent::List),
            at(desk, Lent::Answer).cast(),
        )
    }
}

fn force(desk: &Desk, leader: u8, presence: u8) -> u8 {
    // SAFETY: as said above; a count touches the start or the end of a page, so that it is aligned.
    unsafe {
        wutherdish_force(
            at(desk, Lent::Settings),
            len(desk, Lent::Settings),
            at(desk, Lent::Schedule),
            len(desk, Lent::Schedule),
            at(desk, Lent::Record),
            len(desk, Lent::Record),
            leader,
            presence,
            at(desk, Lent::List),
            len(desk, Lent::List),
            at(desk, Lent::Output),
            len(desk, Lent::Output),
            at(desk, Lent::Count).cast(),
        )
    }
}

fn open(desk: &Desk) -> u8 {
    let (book, settings) = (Lent::Book, Lent::Settings);
    // SAFETY: as said above.
    unsafe { wutherdish_open(at(desk, book), len(desk, book), at(desk, settings), len(desk, settings)) }
}

fn offer(desk: &Desk, leader: u8) -> u8 {
    // SAFETY: as said above.
    unsafe {
        wutherdish_offer(
            at(desk, Lent::Book),
            len(desk, Lent::Book),
            at(desk, Lent::Schedule),
            len(desk, Lent::Schedule),
            leader,
            at(desk, Lent::Record),
            len(desk, Lent::Record),
            at(desk, Lent::Peers),
            len(desk, Lent::Peers),
            answer(desk),
        )
    }
}

fn convert(desk: &Desk, from: Arrangement) -> u8 {
    let call = match from {
        Arrangement::Pairs => wutherdish_pairs_to_columns,
        Arrangement::Columns => wutherdish_columns_to_pairs,
    };
    let (record, output, count) = (Lent::Record, Lent::Output, at(desk, Lent::Count).cast());
    // SAFETY: as said above; a count touches the start or the end of a page, so that it is aligned.
    unsafe { call(at(desk, record), len(desk, record), at(desk, output), len(desk, output), count) }
}

/// What has a pointer is that of the desk, the rest that of the draft.
fn write(desk: &Desk, draft: &Draft) -> u8 {
    // SAFETY: as said above; a count touches the start or the end of a page, so that it is aligned.
    unsafe {
        wutherdish_write(
            at(desk, Lent::Id).cast(),
            draft.payload_len,
            draft.payload_bytes,
            at(desk, Lent::Includes),
            len(desk, Lent::Includes),
            at(desk, Lent::Witness),
            len(desk, Lent::Witness),
            at(desk, Lent::Evidence),
            len(desk, Lent::Evidence),
            at(desk, Lent::Proof).cast(),
            at(desk, Lent::Trigger).cast(),
            draft.role,
            draft.seq_no,
            draft.is_last,
            draft.time,
            draft.anchor_time,
            at(desk, Lent::Output),
            len(desk, Lent::Output),
            at(desk, Lent::Count).cast(),
        )
    }
}
