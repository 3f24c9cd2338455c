//! The library's writer of points, on a draft.

use oracle::draft::Draft;
use wutherdish::lent;

/// Gives the number, or 0 where the record stands at the front of the output, and `written` is its length.
pub fn compose(draft: &Draft, out: &mut [u8], written: &mut u32) -> u8 {
    lent::write(
        &draft.id,
        draft.payload_len,
        draft.payload_bytes,
        &draft.includes,
        &draft.witness,
        &draft.evidence,
        &draft.anchor_proof,
        &draft.anchor_trigger,
        draft.role,
        draft.seq_no,
        draft.is_last,
        draft.time,
        draft.anchor_time,
        out,
        written,
    )
}
