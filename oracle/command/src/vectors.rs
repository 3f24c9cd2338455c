//! Files of cases through the oracle.

use std::io::{self, Write};
use std::time::Instant;

use book::file::moved;
use oracle::arrangement::Arrangement;
use oracle::file::{self, Case, answer_bytes};

fn load(path: &str, arrangement: Arrangement) -> Result<Vec<(Case, Vec<u8>)>, String> {
    file::read(&bytes(path, arrangement)?).ok_or_else(|| format!("{path}: not a whole file of cases"))
}

/// A file of cases; one of pairs is moved.
pub fn bytes(path: &str, arrangement: Arrangement) -> Result<Vec<u8>, String> {
    let bytes = std::fs::read(path).map_err(|e| format!("{path}: {e}"))?;
    match arrangement {
        Arrangement::Columns => Ok(bytes),
        Arrangement::Pairs => moved(&bytes).ok_or_else(|| format!("{path}: not a whole file of cases")),
    }
}

/// One line per case.
pub fn lines(path: &str) -> Result<(), String> {
    let mut out = io::stdout().lock();
    for (case, _) in load(path, Arrangement::Columns)? {
        writeln!(out, "{}", case.answer()).map_err(|e| e.to_string())?;
    }
    Ok(())
}

/// Says every difference. A panic of the Rust is told apart: document 01 has an answer where the Rust has none.
pub fn compare(path: &str, arrangement: Arrangement) -> Result<(), String> {
    let cases = load(path, arrangement)?;
    let start = Instant::now();
    let (mut same, mut panics, mut other) = (0, 0, 0);
    for (place, (case, expected)) in cases.iter().enumerate() {
        let answer = case.answer();
        match answer_bytes(&answer) {
            Some(bytes) if bytes == *expected => same += 1,
            Some(_) => {
                other += 1;
                println!("case {place}: {answer}\n  expected {}", shown(expected));
            }
            None => {
                panics += 1;
                println!("case {place}: {answer}\n  expected {}", shown(expected));
            }
        }
    }
    let seconds = start.elapsed().as_secs_f64();
    println!("{} cases in {seconds:.2} s: {same} the same, {panics} panics of the Rust, {other} others", cases.len());
    if other == 0 { Ok(()) } else { Err(format!("{other} answers differ")) }
}

/// The start of an answer's bytes: number, kind, reason, round.
fn shown(answer: &[u8]) -> String {
    match answer {
        [number, kind, reason, round @ ..] if round.len() > 4 => {
            let round = u32::from_le_bytes([round[0], round[1], round[2], round[3]]);
            format!("number {number} kind {kind} reason {reason} round {round}")
        }
        _ => "an answer that is too short".to_string(),
    }
}
