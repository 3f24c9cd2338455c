//! Generated cases through the oracle and the library.

use std::time::Instant;

use compare::run::{Counts, Range, run};
use oracle::file::Case;

use crate::difference::compare;
use crate::lent::Lent;
use crate::tally::Tally;

/// Places that a thread takes at a time.
const BLOCK: u64 = 256;

#[derive(Default)]
struct Compared {
    tally: Tally,
    lent: Lent,
}

impl Counts for Compared {
    fn merge(&mut self, other: Self) {
        self.tally.merge(other.tally);
    }
}

/// Compares the cases that `make` gives by seed and place.
pub fn cases(name: &str, make: fn(u64, u64) -> Vec<Case>, range: &Range) -> Result<(), String> {
    let start = Instant::now();
    let Compared { tally, .. } = run(range, BLOCK, |compared: &mut Compared, place| {
        for case in make(range.seed, place) {
            let agreed =
                compare(&case, &mut compared.lent).map_err(|report| format!("a {name} case differs\n{report}"))?;
            compared.tally.add(&case, &agreed);
        }
        Ok(())
    })?;
    tally.print();
    let seconds = start.elapsed().as_secs_f64();
    let Range { seed, count, threads } = range;
    let cases = tally.cases();
    println!("seed {seed}, {count} places: {cases} {name} cases in {seconds:.1} s, threads {threads}: no difference");
    Ok(())
}
