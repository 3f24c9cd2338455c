//! Generated cases with all reasons that judging sets, and what a maker of trails might get wrong.

use std::collections::BTreeMap;
use std::time::Instant;

use cases::many::case;
use oracle::answer::{INVALID_REASONS, NONE, ROLES};
use oracle::row::Row;
use trail::mistake::Mistake;
use trail::trail;

const LISTS: [&str; 3] = ["no list", "direct", "indirect"];
/// As of answers.
const LEAST: u64 = 50;
/// What a row can say but for its place: list, reason and role. 2 and 3 in one list alone, 4 to 7, 9, 10, 12, 13, 15 and 16 of direct
/// entries, 14 of indirect ones, and 8, 11, 17 to 19 of either.
const KINDS: usize = 27;

/// Runs cases through the noting copy of the source and the plain judge, which have to agree, prints how often each kind of row and
/// each number of rows came, and fails where a kind is too rare, or where no case notices a mistake.
pub fn run(seed: u64, count: u64) -> Result<(), String> {
    let start = Instant::now();
    let (mut kinds, mut lengths) = (BTreeMap::<String, u64>::new(), [0_u64; 10]);
    let (mut noticed, mut panics) = ([0_u64; Mistake::ALL.len()], 0);
    for place in 0..count {
        let case = case(seed, place);
        let trail = trail(&case).map_err(|why| format!("seed {seed} case {place}: {why}"))?;
        panics += u64::from(trail.by_plain);
        lengths[trail.rows.len().min(lengths.len() - 1)] += 1;
        trail.rows.iter().for_each(|row| *kinds.entry(name(row)).or_default() += 1);
        for (mistake, noticed) in Mistake::ALL.iter().zip(&mut noticed) {
            *noticed += u64::from(mistake.rows(&case, &trail.rows) != trail.rows);
        }
    }
    kinds.iter().for_each(|(name, count)| println!("{count:7} {name}"));
    lengths.iter().enumerate().for_each(|(rows, count)| println!("{count:7} cases with {rows} rows"));
    Mistake::ALL.iter().zip(&noticed).for_each(|(mistake, count)| println!("{count:7} notice: {}", mistake.text()));
    println!("seed {seed}: {count} cases in {:.1} s", start.elapsed().as_secs_f64());
    let least = LEAST * count / 20_000;
    if kinds.len() < KINDS || kinds.values().any(|count| *count < least) {
        return Err(format!("seed {seed}: a kind of row came less than {least} times"));
    }
    let sharp = noticed.iter().filter(|noticed| **noticed > 0).count();
    println!(
        "seed {seed}: the source's noting copy and the plain judge give the same rows, {panics} panics not compared"
    );
    println!("seed {seed}: {} kinds of rows; {sharp} of {} mistakes noticed", kinds.len(), noticed.len());
    if sharp == noticed.len() { Ok(()) } else { Err("a mistake went unnoticed".to_string()) }
}

fn name([list, _, _, reason, role, ..]: &Row) -> String {
    let reason_name = INVALID_REASONS[usize::from(*reason) - 1];
    let role = if *role == NONE { "" } else { ROLES[usize::from(*role)] };
    format!("{} {reason:02} {reason_name} {role}", LISTS[usize::from(*list)]).trim_end().to_string()
}
