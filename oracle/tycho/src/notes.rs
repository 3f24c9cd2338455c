//! The reasons that a copy of the source sets, each with the entry that is judged then (../build.rs makes the copy).

use std::cell::{Cell, RefCell};

use crate::dag::InvalidReason;

pub struct Note {
    pub list: u8,
    pub place: usize,
    pub reason: InvalidReason,
}

thread_local! {
    /// List and place of the entry that arrived last, which is the one that is judged.
    static ENTRY: Cell<(u8, usize)> = const { Cell::new((0, 0)) };
    static NOTES: RefCell<Vec<Note>> = const { RefCell::new(Vec::new()) };
}

/// An entry arrives, and is judged until the next one does.
pub fn arrived(list: u8, place: usize) {
    ENTRY.set((list, place));
}

/// What the copy sets where the source sets `Some(reason)`: the same.
pub fn noted(reason: InvalidReason) -> Option<InvalidReason> {
    let (list, place) = ENTRY.get();
    NOTES.with_borrow_mut(|notes| notes.push(Note { list, place, reason: reason.clone() }));
    Some(reason)
}

/// All notes of this thread since they were taken last.
pub fn take() -> Vec<Note> {
    NOTES.take()
}
