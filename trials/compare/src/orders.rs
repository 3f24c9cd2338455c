//! Short lists in every order, through the oracle and the library: what the order can't choose, it doesn't.

use std::collections::BTreeMap;
use std::time::Instant;

use compare::permute::permuted;
use compare::run::{Counts, Range, run};
use oracle::Answer;
use oracle::answer::{INVALID, TRANS_INVALID, VALID};
use oracle::file::Case;

use crate::difference::{Agreed, compare};
use crate::lent::Lent;
use crate::tally::Tally;

/// Places that a thread takes at a time.
const BLOCK: u64 = 256;

/// What every order of a list has in common.
#[derive(Clone, PartialEq, Eq, Debug)]
enum Outcome {
    Number(u8),
    Valid,
    TransInvalid {
        round: u32,
        has_dag_round: bool,
    },
    Invalid,
    /// Fail and ill-formed, whole.
    Other([u8; 114]),
}

impl Outcome {
    fn of(answer: &Answer) -> Option<Self> {
        Some(match answer {
            Answer::Number(number) => Self::Number(*number),
            Answer::Panic(_) => return None,
            Answer::Verdict(verdict) => match verdict.kind {
                VALID => Self::Valid,
                INVALID => Self::Invalid,
                TRANS_INVALID => Self::TransInvalid {
                    round: verdict.id.as_ref()?.round,
                    has_dag_round: !matches!(verdict.root_reason, 2 | 3 | 20),
                },
                _ => Self::Other(verdict.bytes()),
            },
        })
    }

    fn name(&self) -> &'static str {
        match self {
            Self::Number(7) => "number 7",
            Self::Number(8) => "number 8",
            Self::Number(9) => "number 9",
            Self::Number(_) => "another number",
            Self::Valid => "valid",
            Self::TransInvalid { .. } => "trans-invalid",
            Self::Invalid => "invalid",
            Self::Other(_) => "fail or ill-formed",
        }
    }
}

/// Lists with an outcome, and those of them whose orders give different answers.
#[derive(Default)]
struct Lists {
    all: u64,
    differ: u64,
}

#[derive(Default)]
struct Compared {
    tally: Tally,
    lent: Lent,
    lists: BTreeMap<&'static str, Lists>,
}

impl Counts for Compared {
    fn merge(&mut self, other: Self) {
        self.tally.merge(other.tally);
        for (name, Lists { all, differ }) in other.lists {
            let lists = self.lists.entry(name).or_default();
            lists.all += all;
            lists.differ += differ;
        }
    }
}

impl Compared {
    /// Each order through both, and all of them against the first.
    fn list(&mut self, orders: &[Case]) -> Result<(), String> {
        let mut first: Option<(Outcome, Answer)> = None;
        let mut differ = false;
        for case in orders {
            let agreed =
                compare(case, &mut self.lent).map_err(|report| format!("a permuted case differs\n{report}"))?;
            self.tally.add(case, &agreed);
            let (Agreed::Rust(answer) | Agreed::Plain(answer)) = agreed;
            let outcome = Outcome::of(&answer).ok_or("a panic")?;
            match &first {
                None => first = Some((outcome, answer)),
                Some((expected, other)) if *expected == outcome => differ |= *other != answer,
                Some((expected, _)) => {
                    return Err(format!("two orders of a list: {expected:?}, {outcome:?}\n{case:?}"));
                }
            }
        }
        if let Some((outcome, _)) = first {
            let lists = self.lists.entry(outcome.name()).or_default();
            lists.all += 1;
            lists.differ += u64::from(differ);
        }
        Ok(())
    }
}

pub fn permutations(range: &Range) -> Result<(), String> {
    let start = Instant::now();
    let compared: Compared = run(range, BLOCK, |compared: &mut Compared, place| {
        permuted(range.seed, place).iter().try_for_each(|orders| compared.list(orders))
    })?;
    compared.tally.print();
    println!("lists by the outcome that all their orders have, and those of them whose orders give different answers:");
    for (name, Lists { all, differ }) in &compared.lists {
        println!("{all:9} {differ:9} {name}");
    }
    let seconds = start.elapsed().as_secs_f64();
    let Range { seed, count, threads } = range;
    let (cases, lists) = (compared.tally.cases(), compared.lists.values().map(|lists| lists.all).sum::<u64>());
    println!(
        "seed {seed}, {count} places: {lists} lists in {cases} orders in {seconds:.1} s, threads {threads}: no \
         difference, and each list has one outcome"
    );
    Ok(())
}
