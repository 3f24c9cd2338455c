//! Generated cases through the oracle.

use std::time::Instant;

use cases::histogram::Histogram;
use oracle::Answer;
use plain::{KNOWN_PANIC, Mistake, Prepared};

/// Every answer that can be given appears at least this often in 20,000 cases.
const LEAST: u64 = 50;

/// Runs cases, prints how often each answer appears, and fails where one is too rare.
pub fn histogram(seed: u64, count: u64) -> Result<(), String> {
    let start = Instant::now();
    let mut histogram = Histogram::default();
    for place in 0..count {
        let case = cases::case(seed, place);
        let answer = case.answer();
        histogram.add(&case, &answer);
    }
    let seconds = start.elapsed().as_secs_f64();
    for (label, count) in histogram.rows() {
        println!("{count:7} {label}");
    }
    println!("seed {seed}: {count} cases in {seconds:.1} s");
    let least = LEAST * count / 20_000;
    let rare = histogram.lacking(least);
    if !rare.is_empty() {
        return Err(format!("seed {seed}: less than {least} times: {}", rare.join(", ")));
    }
    let (label, rarest) = histogram.rarest();
    println!("seed {seed}: every answer that can be given appears; the rarest, {label}, {rarest} times");
    Ok(())
}

/// Runs cases through the oracle and the plain judge, which have to agree, and then the plain judge with each
/// mistake, which has to differ from the oracle somewhere.
pub fn sharpness(seed: u64, count: u64) -> Result<(), String> {
    let start = Instant::now();
    let mut noticed = vec![0_u64; Mistake::ALL.len()];
    let panics = each_agreed(seed, count, |prepared, answer| {
        for (mistake, noticed) in Mistake::ALL.iter().zip(&mut noticed) {
            *noticed += u64::from(prepared.answer(Some(*mistake)) != *answer);
        }
    })?;
    let seconds = start.elapsed().as_secs_f64();
    for (mistake, noticed) in Mistake::ALL.iter().zip(&noticed) {
        println!("{noticed:7} {}", mistake.text());
    }
    let sharp = noticed.iter().filter(|noticed| **noticed > 0).count();
    let all = Mistake::ALL.len();
    println!("seed {seed}: {count} cases in {seconds:.1} s: the plain judge agrees, {panics} panics not compared");
    println!("seed {seed}: {sharp} of {all} mistakes noticed");
    if sharp == all { Ok(()) } else { Err(format!("{} mistakes went unnoticed", all - sharp)) }
}

/// The oracle and the plain judge alone: for many cases.
pub fn agree(seed: u64, count: u64) -> Result<(), String> {
    let start = Instant::now();
    let panics = each_agreed(seed, count, |_, _| ())?;
    let seconds = start.elapsed().as_secs_f64();
    println!("seed {seed}: {count} cases in {seconds:.1} s: the plain judge agrees, {panics} panics not compared");
    Ok(())
}

/// Runs cases through the oracle and the plain judge, and hands each on once they agree. Gives how often the oracle panicked, which
/// is not compared.
fn each_agreed(seed: u64, count: u64, mut then: impl FnMut(&Prepared, &Answer)) -> Result<u64, String> {
    let mut panics = 0;
    for place in 0..count {
        let case = cases::case(seed, place);
        let answer = case.answer();
        if let Answer::Panic(message) = &answer {
            check_panic(message)?;
            panics += 1;
            continue;
        }
        let prepared = Prepared::new(&case);
        let plain = prepared.answer(None);
        if plain != answer {
            return Err(disagreement(seed, place, &answer, &plain));
        }
        then(&prepared, &answer);
    }
    Ok(panics)
}

fn disagreement(seed: u64, place: u64, answer: &Answer, plain: &Answer) -> String {
    format!("seed {seed} case {place}: the oracle says {answer}; the plain judge says {plain}")
}

fn check_panic(message: &str) -> Result<(), String> {
    let known = message.starts_with(KNOWN_PANIC);
    if known { Ok(()) } else { Err(format!("a panic that is not listed: {message}")) }
}
