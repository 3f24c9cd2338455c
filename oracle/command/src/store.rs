//! The stored list: a fixed sample of cases with the oracle's answers.

use std::collections::{BTreeMap, HashSet};

use cases::edges;
use cases::histogram::label;
use oracle::file::{Case, answer_bytes};
use oracle::{Answer, file};
use plain::{Mistake, Prepared};

const SEED: u64 = 1;
const COUNT: u64 = 20_000;
/// Of every label: this many of the smallest cases, and as many of the first that are small.
const SMALLEST: usize = 8;
const FIRST: usize = 8;
/// Of every mistake: this many of the first small cases that notice it.
const NOTICING: usize = 3;
const SMALL: usize = 4_000;

/// P1 to P10, and a choice of the cases of one seed that has every answer and notices every mistake.
pub fn write(path: &str) -> Result<(), String> {
    let mut out = Vec::new();
    let mut written = 0;
    for edge in edges::all() {
        add(&edge.case, &edge.case.answer(), &mut out)?;
        written += 1;
    }
    for place in choose() {
        let case = cases::case(SEED, place);
        add(&case, &case.answer(), &mut out)?;
        written += 1;
    }
    std::fs::write(path, &out).map_err(|e| format!("{path}: {e}"))?;
    println!("{written} cases, {} bytes", out.len());
    Ok(())
}

fn add(case: &Case, answer: &Answer, out: &mut Vec<u8>) -> Result<(), String> {
    let answer = answer_bytes(answer).ok_or("a panic is no answer to store")?;
    case.write(&answer, out);
    Ok(())
}

/// The chosen places, rising.
fn choose() -> Vec<u64> {
    let mut by_label: BTreeMap<String, Vec<(usize, u64)>> = BTreeMap::new();
    let mut noticing = vec![0; Mistake::ALL.len()];
    let mut chosen = HashSet::new();
    for place in 0..COUNT {
        let case = cases::case(SEED, place);
        let answer = case.answer();
        if matches!(answer, Answer::Panic(_)) {
            continue;
        }
        by_label.entry(label(&case, &answer)).or_default().push((case.size(), place));
        if case.size() <= SMALL && notices(&case, &answer, &mut noticing) {
            chosen.insert(place);
        }
    }
    for mut cases in by_label.into_values() {
        chosen.extend(cases.iter().filter(|(size, _)| *size <= SMALL).take(FIRST).map(|(_, place)| place));
        cases.sort_unstable();
        chosen.extend(cases.iter().take(SMALLEST).map(|(_, place)| place));
    }
    let mut places: Vec<u64> = chosen.into_iter().collect();
    places.sort_unstable();
    places
}

/// Whether the case notices a mistake that few before it did.
fn notices(case: &Case, answer: &Answer, noticing: &mut [usize]) -> bool {
    let prepared = Prepared::new(case);
    let mut wanted = false;
    for (mistake, count) in Mistake::ALL.iter().zip(noticing) {
        if *count < NOTICING && prepared.answer(Some(*mistake)) != *answer {
            *count += 1;
            wanted = true;
        }
    }
    wanted
}

/// Replays a stored list through the oracle, and counts the mistakes that it notices.
pub fn check(path: &str) -> Result<(), String> {
    let bytes = std::fs::read(path).map_err(|e| format!("{path}: {e}"))?;
    let cases = file::read(&bytes).ok_or_else(|| format!("{path}: not a whole file of cases"))?;
    let mut noticed = HashSet::new();
    for (place, (case, expected)) in cases.iter().enumerate() {
        let answer = case.answer();
        if answer_bytes(&answer).as_ref() != Some(expected) {
            return Err(format!("{path}: case {place} is answered otherwise now: {answer}"));
        }
        let prepared = Prepared::new(case);
        let differs = |mistake: &&Mistake| prepared.answer(Some(**mistake)) != answer;
        noticed.extend(Mistake::ALL.iter().filter(differs).map(|mistake| mistake.text()));
    }
    let (sharp, all) = (noticed.len(), Mistake::ALL.len());
    println!("{path}: {} cases answered as stored; they notice {sharp} of {all} mistakes", cases.len());
    if sharp == all { Ok(()) } else { Err(format!("{} mistakes went unnoticed", all - sharp)) }
}
