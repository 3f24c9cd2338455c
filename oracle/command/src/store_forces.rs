//! The stored lists on what the network can force, with the answers of the Rust, judging each entry where its reason decides.

use std::collections::BTreeMap;

use cases::random::Random;
use cases::{case, forcing};
use oracle::file;
use oracle::forcing::{FORCE, ROW, Row, answer_bytes, found, rows_bytes};
use oracle::question::Question;

const SEED: u64 = 1;
const COUNT: u64 = 20_000;
/// One list in this many is of a case of any kind, in the others several entries mostly have reasons.
const ANY: u64 = 4;
/// Reasons beyond this count are as good as as many.
const ROWS: usize = 4;

/// What a list is stored for.
#[derive(Clone, PartialEq, Eq, PartialOrd, Ord)]
enum Kind {
    Number(u8),
    /// One that is short, by how many rows there are.
    Short(usize),
    /// A row's list, reason and role, by how many rows there are, up to some.
    Row(u8, u8, u8, usize),
    Empty,
    /// The first row's place is above the second one's.
    ByReason,
}

struct Forcing {
    question: Question,
    room: usize,
    found: Result<Vec<Row>, u8>,
}

/// The smallest list of each kind.
pub fn write(path: &str) -> Result<(), String> {
    let mut smallest: BTreeMap<Kind, (usize, u64)> = BTreeMap::new();
    for place in 0..COUNT {
        let Some(list) = list(place) else { continue };
        let here = (list.question.blobs().iter().map(Vec::len).sum(), place);
        for kind in kinds(&list) {
            let least = smallest.entry(kind).or_insert(here);
            *least = here.min(*least);
        }
    }
    let kinds = smallest.len();
    let mut places: Vec<u64> = smallest.into_values().map(|(_, place)| place).collect();
    places.sort_unstable();
    places.dedup();
    let mut out = Vec::new();
    for Forcing { question, room, found } in places.iter().filter_map(|place| list(*place)) {
        let (inputs, length) = (question.blobs(), (room as u32).to_le_bytes());
        let answer = answer_bytes(&rows_bytes(&found, room));
        let blobs = inputs.iter().map(Vec::as_slice).chain([&length[..], &answer]);
        file::write(FORCE, &blobs.collect::<Vec<_>>(), &mut out);
    }
    std::fs::write(path, &out).map_err(|e| format!("{path}: {e}"))?;
    println!("{} lists of {kinds} kinds, {} bytes", places.len(), out.len());
    Ok(())
}

/// None for a case that is verified, and for one where the Rust panics.
fn list(place: u64) -> Option<Forcing> {
    let make = if place.is_multiple_of(ANY) { case } else { forcing };
    let question = Question::of(make(SEED, place))?;
    let found = found(&question, |list| question.judging(list).answer()).ok()?;
    let random = &mut Random::new(SEED, place);
    let length = found.as_ref().map_or(0, Vec::len) * ROW;
    let room = if random.chance(1, 4) { length.saturating_sub(1) } else { length + random.pick(&[0, 1, 8, 16]) };
    Some(Forcing { question, room, found })
}

fn kinds(Forcing { room, found, .. }: &Forcing) -> Vec<Kind> {
    let rows = match found {
        Err(number) => return vec![Kind::Number(*number)],
        Ok(rows) if rows.is_empty() => return vec![Kind::Empty],
        Ok(rows) if *room < rows.len() * ROW => return vec![Kind::Short(rows.len().min(ROWS))],
        Ok(rows) => rows,
    };
    let count = rows.len().min(ROWS);
    let kind = |row: &Row| Kind::Row(row.list, row.reason, row.role, count);
    let falls = rows.windows(2).any(|pair| pair[0].place > pair[1].place);
    rows.iter().map(kind).chain(falls.then_some(Kind::ByReason)).collect()
}
