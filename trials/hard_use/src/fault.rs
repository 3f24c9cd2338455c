//! Faults that the self-test makes beside the library's calls, to see that each is noticed.

use std::time::Duration;

use inputs::call::{Call, Lent};

use crate::desk::Desk;

/// Longer than any bound.
const LONG: Duration = Duration::from_secs(60);

#[derive(Clone, Copy, PartialEq, Eq, Debug)]
pub enum Fault {
    /// The byte in front of what is lent, or the one after it, is read.
    ReadBefore(Lent),
    ReadPast(Lent),
    /// One of them is changed.
    WriteBefore(Lent),
    WritePast(Lent),
    /// The last byte inside is changed.
    WriteInside(Lent),
    /// The number that is given is another.
    Number,
    /// The call doesn't end.
    Sleep,
}

impl Fault {
    pub fn all() -> Vec<Self> {
        let kinds = [Self::ReadBefore, Self::ReadPast, Self::WriteBefore, Self::WritePast, Self::WriteInside];
        let lent = |kind: fn(Lent) -> Self| Lent::ALL.into_iter().map(kind);
        kinds.into_iter().flat_map(lent).chain([Self::Number, Self::Sleep]).collect()
    }

    /// Makes the fault where the call is lent what it needs, and gives the call's number.
    pub fn make(self, desk: &Desk, call: &Call, number: u8) -> u8 {
        let place = |lent: Lent, from_start: isize| {
            call.lends(lent).then(|| desk.buffer(lent).pointer().wrapping_offset(from_start))
        };
        let end = |lent: Lent| desk.buffer(lent).len() as isize;
        match self {
            Self::ReadBefore(lent) => read(place(lent, -1)),
            Self::ReadPast(lent) => read(place(lent, end(lent))),
            Self::WriteBefore(lent) => change(place(lent, -1)),
            Self::WritePast(lent) => change(place(lent, end(lent))),
            Self::WriteInside(lent) => change(place(lent, end(lent) - 1).filter(|_| end(lent) > 0)),
            Self::Number => return number ^ 1,
            Self::Sleep => std::thread::sleep(LONG),
        }
        number
    }
}

fn read(place: Option<*mut u8>) {
    if let Some(place) = place {
        // SAFETY: none; reading there has to fault, or is harmless inside the buffer's own pages.
        unsafe { place.read_volatile() };
    }
}

fn change(place: Option<*mut u8>) {
    if let Some(place) = place {
        // SAFETY: none; writing there has to fault, or changes a byte of the buffer's own pages.
        unsafe { place.write_volatile(!place.read_volatile()) };
    }
}
