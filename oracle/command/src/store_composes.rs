//! The stored drafts, with the answers of the writer beside the library.

use std::collections::BTreeMap;

use cases::drafts::{Drafted, drafted};
use oracle::draft::{COMPOSE, Draft, answer_bytes};
use oracle::file;
use oracle::numbers::OUTPUT;

const SEED: u64 = 1;
const COUNT: u64 = 20_000;
/// Of each kind this many of the smallest are stored.
const SMALLEST: usize = 3;
/// A draft counts as mixed from this many rows on whose order has to be found.
const ROWS: usize = 3;
const MOST_ROWS: usize = 255;

/// What drafts are stored for.
#[derive(Clone, Copy, PartialEq, Eq, PartialOrd, Ord)]
enum Kind {
    /// Composed, its rows in another order, by role and by the kinds of the links.
    Mixed { role: u8, proof: u8, trigger: u8 },
    /// Composed, with a map of so many rows.
    Rows(usize),
    /// Refused by a number, for one thing or more.
    Refused { number: u8, is_wrong_twice: bool },
    /// Too long by one byte.
    ByOne,
}

/// The smallest drafts of each kind.
pub fn write(path: &str) -> Result<(), String> {
    let mut kinds: BTreeMap<Kind, Vec<(usize, u64)>> = BTreeMap::new();
    for place in 0..COUNT {
        let drafted = drafted(SEED, place);
        for kind in kinds_of(&drafted) {
            kinds.entry(kind).or_default().push((size(&drafted.draft), place));
        }
    }
    let mut places: Vec<u64> = Vec::new();
    for (kind, mut drafts) in kinds.clone() {
        drafts.sort_unstable();
        let count = if matches!(kind, Kind::Rows(MOST_ROWS)) { 1 } else { SMALLEST };
        places.extend(drafts.iter().take(count).map(|(_, place)| place));
    }
    places.sort_unstable();
    places.dedup();
    let mut out = Vec::new();
    places.iter().for_each(|place| add(&drafted(SEED, *place), &mut out));
    std::fs::write(path, &out).map_err(|e| format!("{path}: {e}"))?;
    println!("{} drafts of {} kinds, {} bytes", places.len(), kinds.len(), out.len());
    Ok(())
}

fn add(Drafted { draft, room, .. }: &Drafted, out: &mut Vec<u8>) {
    let (parts, room_bytes) = (draft.blobs(), (*room as u32).to_le_bytes());
    let answer = answer_bytes(&draft.composed(*room));
    let blobs = parts.iter().map(Vec::as_slice).chain([&room_bytes[..], &answer]);
    file::write(COMPOSE, &blobs.collect::<Vec<_>>(), out);
}

fn kinds_of(Drafted { draft, room, expected, is_wrong_twice }: &Drafted) -> Vec<Kind> {
    let point = match expected {
        Err(number) => {
            let by_one = *number == OUTPUT && draft.composed(room + 1).is_ok();
            let refused = Kind::Refused { number: *number, is_wrong_twice: *is_wrong_twice };
            return [refused].into_iter().chain(by_one.then_some(Kind::ByOne)).collect();
        }
        Ok(point) => point,
    };
    let rows = [draft.includes.len() / 64, draft.witness.len() / 64, draft.evidence.len() / 32];
    let mut kinds: Vec<Kind> =
        rows.into_iter().filter(|rows| matches!(*rows, 0 | 1 | 2 | MOST_ROWS)).map(Kind::Rows).collect();
    let rising = Draft::of(point);
    let mixed = (&rising.includes, &rising.witness) != (&draft.includes, &draft.witness);
    if mixed && rows.iter().all(|rows| *rows >= ROWS) {
        let [proof, trigger] = [draft.anchor_proof[0], draft.anchor_trigger[0]];
        kinds.push(Kind::Mixed { role: draft.role, proof, trigger });
    }
    kinds
}

fn size(draft: &Draft) -> usize {
    draft.includes.len() + draft.witness.len() + draft.evidence.len()
}
