//! Point records from before format 2, and back.

use crate::lent;
use crate::refusal::Refusal;

/// Converts a point record of format 1, whose includes and witness are pairs of peer and digest (the arrangement `pairs`), to
/// format 2, in which all peers stand before all digests (`columns`). Nothing in a record tells the two apart: the host has to know
/// which it holds. A record that can't be read as `pairs` is refused with [`Refusal::Record`]; one outside the domain is converted.
///
/// ```
/// use wutherdish::{Digest, PeerId, Point, PointId, columns_to_pairs, pairs_to_columns};
///
/// let [ada, bea] = [2, 3].map(|byte| PeerId([byte; 32]));
/// let id = PointId { round: 20, digest: Digest([10; 32]), author: ada };
/// let point = Point::new(id, 70_001, 70_000).include(ada, Digest([9; 32])).include(bea, Digest([8; 32]));
///
/// let record = point.to_bytes()?;
/// let old = columns_to_pairs(&record)?;
/// assert_ne!(old, record);
/// assert_eq!(Point::read_pairs(&old)?, (point, &[][..]));
/// assert_eq!(pairs_to_columns(&old)?, record);
/// # Ok::<(), Box<dyn std::error::Error>>(())
/// ```
pub fn pairs_to_columns(record: &[u8]) -> Result<Vec<u8>, Refusal> {
    converted(record, lent::pairs_to_columns)
}

/// Converts a point record of format 2 to format 1, likewise: for programs that still take `pairs`.
pub fn columns_to_pairs(record: &[u8]) -> Result<Vec<u8>, Refusal> {
    converted(record, lent::columns_to_pairs)
}

/// Lends a call its output, as long as the record, and its count.
fn converted(record: &[u8], call: fn(&[u8], &mut [u8], &mut u32) -> u8) -> Result<Vec<u8>, Refusal> {
    let (mut out, mut written) = (vec![0; record.len()], 0);
    match call(record, &mut out, &mut written) {
        0 if usize::try_from(written) == Ok(record.len()) => Ok(out),
        0 => Err(Refusal::Foreign(0)),
        number => Err(Refusal::new(number)),
    }
}
