//! The stored trails: judge cases with all reasons that the source sets.

use std::collections::BTreeMap;

use cases::many::case;
use oracle::Answer;
use oracle::file::{Case, write as write_case};
use trail::mistake::Mistake;
use trail::{TRAIL, Trail, rooms, trail};

const SEED: u64 = 1;
const COUNT: u64 = 20_000;
/// Of each kind this many of the smallest are stored.
const SMALLEST: usize = 2;
/// No larger case is stored.
const SMALL: usize = 6_000;
/// Of an entry or of a case, so many rows or more.
const MANY: usize = 8;

/// What cases are stored for.
#[derive(Clone, Copy, PartialEq, Eq, PartialOrd, Ord)]
enum Kind {
    /// A number, or a verdict's kind and reason.
    Answer([u8; 3]),
    /// A row's list, reason and role.
    Row([u8; 3]),
    /// An entry with so many rows.
    OfEntry(usize),
    /// So many rows in all.
    Rows(usize),
    /// A mistake that is noticed.
    Mistake(usize),
}

/// The smallest cases of each kind, with room for their rows; those with rows that are stored for how many there are with other
/// lengths of the trail too.
pub fn write(path: &str) -> Result<(), String> {
    let mut kinds: BTreeMap<Kind, Vec<(usize, u64)>> = BTreeMap::new();
    for place in 0..COUNT {
        let case = case(SEED, place);
        if case.size() > SMALL {
            continue;
        }
        let trail = trail(&case).map_err(|why| format!("seed {SEED} case {place}: {why}"))?;
        for kind in kinds_of(&case, &trail) {
            kinds.entry(kind).or_default().push((case.size(), place));
        }
    }
    let mut stored: BTreeMap<u64, bool> = BTreeMap::new();
    for (kind, mut cases) in kinds.clone() {
        cases.sort_unstable();
        for (at, (_, place)) in cases.iter().take(SMALLEST).enumerate() {
            *stored.entry(*place).or_default() |= at == 0 && matches!(kind, Kind::Rows(_));
        }
    }
    let (mut out, mut written) = (Vec::new(), 0);
    for (place, in_all_rooms) in stored {
        let case = case(SEED, place);
        let trail = trail(&case)?;
        let rooms = rooms(trail.rows.len());
        for room in if in_all_rooms { &rooms[..] } else { &rooms[..1] } {
            add(&case, *room, trail.clone(), &mut out)?;
            written += 1;
        }
    }
    std::fs::write(path, &out).map_err(|e| format!("{path}: {e}"))?;
    println!("{written} trails of {} kinds, {} bytes", kinds.len(), out.len());
    Ok(())
}

fn add(case: &Case, room: usize, trail: Trail, out: &mut Vec<u8>) -> Result<(), String> {
    let answer = trail.in_room(room).bytes().ok_or("a panic is no answer to store")?;
    let (_, mut blobs) = case.blobs();
    blobs.extend([(room as u32).to_le_bytes().to_vec(), answer]);
    write_case(TRAIL, &blobs.iter().map(Vec::as_slice).collect::<Vec<_>>(), out);
    Ok(())
}

fn kinds_of(case: &Case, trail: &Trail) -> Vec<Kind> {
    let answer = match &trail.answer {
        Answer::Number(number) => [*number, 0, 0],
        Answer::Verdict(verdict) => [0, verdict.kind, verdict.reason],
        Answer::Panic(_) => return Vec::new(),
    };
    let rows = &trail.rows;
    let mut kinds = vec![Kind::Answer(answer), Kind::Rows(rows.len().min(MANY))];
    kinds.extend(rows.iter().map(|row| Kind::Row([row[0], row[3], row[4]])));
    let by_entry = rows.chunk_by(|row, next| row[..3] == next[..3]);
    kinds.extend(by_entry.map(|rows| Kind::OfEntry(rows.len().min(MANY))));
    let noticed = |mistake: &Mistake| mistake.rows(case, rows) != *rows;
    kinds.extend(
        (Mistake::ALL.iter().enumerate()).filter(|(_, mistake)| noticed(mistake)).map(|(at, _)| Kind::Mistake(at)),
    );
    kinds.sort_unstable();
    kinds.dedup();
    kinds
}
