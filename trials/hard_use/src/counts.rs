//! How often each call, source and answer came, and the longest call.

use std::collections::BTreeMap;
use std::time::Duration;

use inputs::call::Call;
use oracle::answer::{FAIL, ILL_FORMED, INVALID, PASSED, TRANS_INVALID, VALID};

use crate::model::Expected;

#[derive(Default)]
pub struct Counts {
    /// By source, call, and answer.
    rows: BTreeMap<(&'static str, usize, Answered), u64>,
    /// Where the plain judge stood in for the Rust.
    stood_in: u64,
    longest: Longest,
    inside: Duration,
}

/// The longest call of the library, and where it stands.
#[derive(Default)]
struct Longest {
    took: Duration,
    place: u64,
    kind: usize,
}

/// A number, none without a verdict, or a verdict's kind and reason.
#[derive(Clone, Copy, PartialEq, Eq, PartialOrd, Ord)]
enum Answered {
    Number(u8),
    Done,
    Verdict(u8, u8),
}

impl Counts {
    pub fn add(&mut self, source: &'static str, place: u64, call: &Call, expected: &Expected, took: Duration) {
        let answered = match expected.verdict {
            Some((kind, reason)) => Answered::Verdict(kind, reason),
            None if expected.number == 0 => Answered::Done,
            None => Answered::Number(expected.number),
        };
        *self.rows.entry((source, call.kind(), answered)).or_default() += 1;
        self.stood_in += u64::from(expected.stood_in);
        self.inside += took;
        self.lengthen(Longest { took, place, kind: call.kind() });
    }

    fn lengthen(&mut self, other: Longest) {
        if other.took > self.longest.took {
            self.longest = other;
        }
    }

    pub fn merge(&mut self, other: Self) {
        for (row, count) in other.rows {
            *self.rows.entry(row).or_default() += count;
        }
        self.stood_in += other.stood_in;
        self.inside += other.inside;
        self.lengthen(other.longest);
    }

    pub fn calls(&self) -> u64 {
        self.rows.values().sum()
    }

    pub fn print(&self) {
        self.print_by("by source and call", |(source, kind, _)| format!("{source}: {}", Call::NAMES[*kind]));
        self.print_by("by call and answer", |(_, kind, answered)| {
            format!("{} {}", Call::NAMES[*kind], answered.name())
        });
        println!("{:9} of them where the Rust panics (254 or 255 peers) and the plain judge stood in", self.stood_in);
        let Longest { took, place, kind } = self.longest;
        let longest = took.as_secs_f64() * 1e3;
        println!("longest call: {longest:.3} ms of the processor's time, {} at place {place}", Call::NAMES[kind]);
        println!("in all calls: {:.1} s of the processor's time", self.inside.as_secs_f64());
    }

    fn print_by(&self, heading: &str, name: impl Fn(&(&'static str, usize, Answered)) -> String) {
        let mut sums: BTreeMap<String, u64> = BTreeMap::new();
        for (row, count) in &self.rows {
            *sums.entry(name(row)).or_default() += count;
        }
        println!("{heading}:");
        for (name, count) in sums {
            println!("{count:9} {name}");
        }
    }
}

impl Answered {
    fn name(self) -> String {
        match self {
            Self::Number(number) => format!("number {number:02}"),
            Self::Done => "done".to_string(),
            Self::Verdict(VALID, _) => "valid".to_string(),
            Self::Verdict(TRANS_INVALID, _) => "trans-invalid".to_string(),
            Self::Verdict(INVALID, reason) => format!("invalid {reason:02}"),
            Self::Verdict(ILL_FORMED, reason) => format!("ill-formed {reason:02}"),
            Self::Verdict(FAIL, _) => "fail".to_string(),
            Self::Verdict(PASSED, _) => "passed".to_string(),
            Self::Verdict(kind, reason) => format!("verdict {kind} {reason}"),
        }
    }
}
