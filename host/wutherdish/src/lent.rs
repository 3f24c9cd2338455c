//! The calls on bytes that the host lends: an answer of [`ANSWER`] bytes and a peer buffer, or an output and its count, which
//! keep what they held where a call gives a number. include/wutherdish.h has the layout of an answer;
//! [`Verdict::read`](crate::Verdict::read) and [`Verified::read`](crate::Verified::read) make enums of it.
//!
//! ```
//! use wutherdish::lent::{self, ANSWER, PEER_BUFFER};
//! use wutherdish::{Refusal, Verified};
//!
//! /// Verifies record after record with one buffer.
//! fn count_passed(settings: &[u8], schedule: &[u8], records: &[Vec<u8>]) -> Result<usize, Refusal> {
//!     let (mut peers, mut answer) = ([0; PEER_BUFFER], [0; ANSWER]);
//!     let mut passed = 0;
//!     for record in records {
//!         match lent::verify(settings, schedule, record, &mut peers, &mut answer) {
//!             0 => passed += usize::from(Verified::read(&answer, &peers) == Some(Verified::Passed)),
//!             number => return Err(Refusal::new(number)),
//!         }
//!     }
//!     Ok(passed)
//! }
//!
//! assert_eq!(count_passed(&[], &[], &[vec![]]), Err(Refusal::Settings));
//! ```

pub use wutherdish_sys::{ANSWER, PEER_BUFFER};

/// Verifies a point: gives document 01's number, or 0 where the answer is set. Unknown peers go to the front of the
/// peer buffer; the rest of it keeps its bytes.
pub fn verify(settings: &[u8], schedule: &[u8], record: &[u8], peers: &mut [u8], answer: &mut [u8; ANSWER]) -> u8 {
    // SAFETY: each length is that of the slice before it, and what is written is borrowed mutably, so that it overlaps
    // nothing else.
    unsafe {
        wutherdish_sys::wutherdish_verify(
            settings.as_ptr(),
            settings.len(),
            schedule.as_ptr(),
            schedule.len(),
            record.as_ptr(),
            record.len(),
            peers.as_mut_ptr(),
            peers.len(),
            answer,
        )
    }
}

/// Judges a point, likewise.
#[expect(clippy::too_many_arguments, reason = "those of the call")]
pub fn judge(
    settings: &[u8],
    schedule: &[u8],
    record: &[u8],
    leader: u8,
    presence: u8,
    list: &[u8],
    peers: &mut [u8],
    answer: &mut [u8; ANSWER],
) -> u8 {
    // SAFETY: as in `verify`.
    unsafe {
        wutherdish_sys::wutherdish_judge(
            settings.as_ptr(),
            settings.len(),
            schedule.as_ptr(),
            schedule.len(),
            record.as_ptr(),
            record.len(),
            leader,
            presence,
            list.as_ptr(),
            list.len(),
            peers.as_mut_ptr(),
            peers.len(),
            answer,
        )
    }
}

/// Judges a point, likewise, and says all reasons that are set: where the answer is set, their rows of 8 bytes stand at the front of
/// the trail. `rows` is how many there are then; the rest of the trail keeps its bytes. One that is 8 bytes longer than the list has
/// room for all rows, and [`Fault::read`](crate::Fault::read) says what a row says.
#[expect(clippy::too_many_arguments, reason = "those of the call")]
pub fn trail(
    settings: &[u8],
    schedule: &[u8],
    record: &[u8],
    leader: u8,
    presence: u8,
    list: &[u8],
    peers: &mut [u8],
    trail: &mut [u8],
    rows: &mut u32,
    answer: &mut [u8; ANSWER],
) -> u8 {
    // SAFETY: as in `verify`.
    unsafe {
        wutherdish_sys::wutherdish_trail(
            settings.as_ptr(),
            settings.len(),
            schedule.as_ptr(),
            schedule.len(),
            record.as_ptr(),
            record.len(),
            leader,
            presence,
            list.as_ptr(),
            list.len(),
            peers.as_mut_ptr(),
            peers.len(),
            trail.as_mut_ptr(),
            trail.len(),
            rows,
            answer,
        )
    }
}

/// Says which certificate would clear a trans-invalid point: gives document 01's number, or 0 where the answer is set. No peer buffer
/// is lent. The answer is 0 for a verdict of another kind, 1 where no single mark clears the point, 2 and the id of the point whose mark
/// does; zeros otherwise.
pub fn clearing(
    settings: &[u8],
    schedule: &[u8],
    record: &[u8],
    leader: u8,
    presence: u8,
    list: &[u8],
    answer: &mut [u8; 69],
) -> u8 {
    // SAFETY: as in `verify`.
    unsafe {
        wutherdish_sys::wutherdish_clearing(
            settings.as_ptr(),
            settings.len(),
            schedule.as_ptr(),
            schedule.len(),
            record.as_ptr(),
            record.len(),
            leader,
            presence,
            list.as_ptr(),
            list.len(),
            answer,
        )
    }
}

/// Says which reasons the network can force: gives document 01's number, or 0 where the rows of 8 bytes stand at the front of the
/// output, one for each reason that some order of the entries gives. `rows` is how many there are then; the rest of the output keeps its
/// bytes. No peer buffer is lent. One that is 8 bytes longer than the list has room for all rows.
#[expect(clippy::too_many_arguments, reason = "those of the call")]
pub fn force(
    settings: &[u8],
    schedule: &[u8],
    record: &[u8],
    leader: u8,
    presence: u8,
    list: &[u8],
    out: &mut [u8],
    rows: &mut u32,
) -> u8 {
    // SAFETY: as in `verify`.
    unsafe {
        wutherdish_sys::wutherdish_force(
            settings.as_ptr(),
            settings.len(),
            schedule.as_ptr(),
            schedule.len(),
            record.as_ptr(),
            record.len(),
            leader,
            presence,
            list.as_ptr(),
            list.len(),
            out.as_mut_ptr(),
            out.len(),
            rows,
        )
    }
}

/// Opens a book in a slice: gives document 01's number, or 0 where it is opened.
pub fn open(book: &mut [u8], settings: &[u8]) -> u8 {
    // SAFETY: as in `verify`.
    unsafe { wutherdish_sys::wutherdish_open(book.as_mut_ptr(), book.len(), settings.as_ptr(), settings.len()) }
}

/// Offers a point to the book in a slice: gives document 01's number, or 0 where the answer is set.
pub fn offer(
    book: &mut [u8],
    schedule: &[u8],
    leader: u8,
    record: &[u8],
    peers: &mut [u8],
    answer: &mut [u8; ANSWER],
) -> u8 {
    // SAFETY: as in `verify`.
    unsafe {
        wutherdish_sys::wutherdish_offer(
            book.as_mut_ptr(),
            book.len(),
            schedule.as_ptr(),
            schedule.len(),
            leader,
            record.as_ptr(),
            record.len(),
            peers.as_mut_ptr(),
            peers.len(),
            answer,
        )
    }
}

/// Converts a point record from the arrangement `pairs` to `columns`: gives document 01's number, or 0 where the converted record
/// stands at the front of the output. `written` is its length then; the rest of the output keeps its bytes.
pub fn pairs_to_columns(record: &[u8], out: &mut [u8], written: &mut u32) -> u8 {
    // SAFETY: as in `verify`.
    unsafe {
        wutherdish_sys::wutherdish_pairs_to_columns(record.as_ptr(), record.len(), out.as_mut_ptr(), out.len(), written)
    }
}

/// Converts a point record from the arrangement `columns` to `pairs`, likewise.
pub fn columns_to_pairs(record: &[u8], out: &mut [u8], written: &mut u32) -> u8 {
    // SAFETY: as in `verify`.
    unsafe {
        wutherdish_sys::wutherdish_columns_to_pairs(record.as_ptr(), record.len(), out.as_mut_ptr(), out.len(), written)
    }
}

/// Writes the record of a point from its parts, whose maps may have their rows in any order: gives document 01's number, or 0 where
/// the record stands at the front of the output. `written` is its length then; the rest of the output keeps its bytes.
/// include/wutherdish.h says what each part is. [`Point::to_bytes`](crate::Point::to_bytes) makes this call for a point.
#[expect(clippy::too_many_arguments, reason = "those of the call")]
pub fn write(
    id: &[u8; 68],
    payload_len: u32,
    payload_bytes: u32,
    includes: &[u8],
    witness: &[u8],
    evidence: &[u8],
    proof: &[u8; 102],
    trigger: &[u8; 102],
    role: u8,
    seq_no: u8,
    is_last: u8,
    time: u64,
    anchor_time: u64,
    out: &mut [u8],
    written: &mut u32,
) -> u8 {
    // SAFETY: as in `verify`.
    unsafe {
        wutherdish_sys::wutherdish_write(
            id,
            payload_len,
            payload_bytes,
            includes.as_ptr(),
            includes.len(),
            witness.as_ptr(),
            witness.len(),
            evidence.as_ptr(),
            evidence.len(),
            proof,
            trigger,
            role,
            seq_no,
            is_last,
            time,
            anchor_time,
            out.as_mut_ptr(),
            out.len(),
            written,
        )
    }
}
