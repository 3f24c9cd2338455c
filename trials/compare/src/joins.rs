//! The joins of a file: kind 21, two records and what comes of joining them.

use oracle::file::blobs;
use wutherdish::{Digest, IndirectLink, InvalidDependency, PeerId, PointId, Through};

use crate::book_file::not_whole;

const JOIN: u8 = 21;

pub fn run(path: &str) -> Result<(), String> {
    let bytes = std::fs::read(path).map_err(|e| format!("{path}: {e}"))?;
    let cases = blobs(&bytes).ok_or_else(|| not_whole(path))?;
    let (mut joins, mut kept, mut replaced) = (0, 0, 0);
    for (place, (_, blobs)) in cases.iter().enumerate().filter(|(_, (kind, _))| *kind == JOIN) {
        let records: Option<Vec<_>> = blobs.iter().map(|blob| record(blob)).collect();
        let Some([first, second, expected]) = records.as_deref() else {
            return Err(format!("{path}: case {place} has no three records"));
        };
        let joined = InvalidDependency::join(*first, *second);
        if joined != *expected {
            return Err(format!("{path}: case {place} differs: {joined:?}, expected {expected:?}"));
        }
        joins += 1;
        kept += usize::from(first.is_some() && second.is_some() && first != second && joined == *first);
        replaced += usize::from(first.is_some() && first != second && joined == *second);
    }
    println!(
        "{path}: {joins} joins as the file says; the first of two records stayed {kept} times, the second {replaced}"
    );
    Ok(())
}

/// Whether it is there (1), the root's id (68), its reason (1), the map (0 includes, 1 witness) and the peer (32); zeros
/// where it is not there.
fn record(blob: &[u8]) -> Option<Option<InvalidDependency>> {
    let blob: &[u8; 103] = blob.try_into().ok()?;
    let part = |at: usize| -> [u8; 32] { std::array::from_fn(|place| blob[at + place]) };
    let to = PointId {
        round: u32::from_le_bytes(std::array::from_fn(|place| blob[1 + place])),
        digest: Digest(part(5)),
        author: PeerId(part(37)),
    };
    let through = match (blob[0], blob[70]) {
        (0, _) => return blob.iter().all(|byte| *byte == 0).then_some(None),
        (1, 0) => Through::Includes(PeerId(part(71))),
        (1, 1) => Through::Witness(PeerId(part(71))),
        _ => return None,
    };
    Some(Some(InvalidDependency { link: IndirectLink { to, through }, reason: blob[69] }))
}
