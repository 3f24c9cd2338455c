//! The stored questions on what would clear a point, with the answers of the Rust, judging again with each point marked.

use std::collections::BTreeMap;

use cases::{case, waiting};
use oracle::clearing::{CLEARING, Clearing, answer_bytes, found};
use oracle::numbers::split;
use oracle::question::Question;
use oracle::value::{Entry, State};
use oracle::{file, read};

const SEED: u64 = 1;
const COUNT: u64 = 20_000;
/// One question in this many is of a case of any kind, the others of points that mostly wait.
const ANY: u64 = 4;

/// What a question is stored for.
#[derive(Clone, Copy, PartialEq, Eq, PartialOrd, Ord)]
enum Kind {
    Number(u8),
    Answered {
        clearing: u8,
        /// How many soiled entries the list has, up to 3.
        soiled: usize,
        has_marked: bool,
        /// Whether a direct entry is soiled, an indirect one, and two of one point.
        places: [bool; 3],
    },
}

/// The smallest question of each kind.
pub fn write(path: &str) -> Result<(), String> {
    let mut smallest: BTreeMap<Kind, (usize, u64)> = BTreeMap::new();
    for place in 0..COUNT {
        if let Some((question, found)) = question(place) {
            let here = (question.blobs().iter().map(Vec::len).sum(), place);
            let least = smallest.entry(kind(&question, &found)).or_insert(here);
            *least = here.min(*least);
        }
    }
    let mut places: Vec<u64> = smallest.into_values().map(|(_, place)| place).collect();
    places.sort_unstable();
    let mut out = Vec::new();
    for (question, found) in places.iter().filter_map(|place| question(*place)) {
        let (inputs, answer) = (question.blobs(), answer_bytes(&found));
        let blobs = inputs.iter().map(Vec::as_slice).chain([&answer[..]]);
        file::write(CLEARING, &blobs.collect::<Vec<_>>(), &mut out);
    }
    std::fs::write(path, &out).map_err(|e| format!("{path}: {e}"))?;
    println!("{} questions, each the smallest of its kind, {} bytes", places.len(), out.len());
    Ok(())
}

/// None for a case that is verified, and for one where the Rust panics.
fn question(place: u64) -> Option<(Question, Result<Clearing, u8>)> {
    let make = if place.is_multiple_of(ANY) { case } else { waiting };
    let question = Question::of(make(SEED, place))?;
    let found = found(&question, |list| question.judging(list).answer()).ok()?;
    Some((question, found))
}

fn kind(question: &Question, found: &Result<Clearing, u8>) -> Kind {
    let clearing = match found {
        Ok(clearing) => clearing.bytes()[0],
        Err(number) => return Kind::Number(*number),
    };
    let entries = read::list(&question.list).unwrap_or_default();
    let is_soiled = |entry: &&Entry| matches!(entry.state, State::Invalid(..) | State::TransInvalid(..));
    let soiled: Vec<&Entry> = entries.iter().filter(is_soiled).collect();
    let (direct, indirect) = split(&entries);
    let has_soiled = |entries: &[Entry]| entries.iter().any(|entry| is_soiled(&entry));
    let is_twice = |at: usize| soiled[..at].iter().any(|entry| entry.state.id() == soiled[at].state.id());
    Kind::Answered {
        clearing,
        soiled: soiled.len().min(3),
        has_marked: soiled.iter().any(|entry| entry.certified),
        places: [has_soiled(direct), has_soiled(indirect), (1..soiled.len()).any(is_twice)],
    }
}
