//! How often each answer came.

use std::collections::BTreeMap;

use cases::histogram::label;
use oracle::file::Case;

use crate::difference::Agreed;

#[derive(Default)]
pub struct Tally {
    compared: BTreeMap<String, u64>,
    panicked: BTreeMap<String, u64>,
}

impl Tally {
    pub fn add(&mut self, case: &Case, agreed: &Agreed) {
        let (rows, answer) = match agreed {
            Agreed::Rust(answer) => (&mut self.compared, answer),
            Agreed::Plain(answer) => (&mut self.panicked, answer),
        };
        *rows.entry(label(case, answer)).or_default() += 1;
    }

    pub fn merge(&mut self, other: Self) {
        for (label, count) in other.compared {
            *self.compared.entry(label).or_default() += count;
        }
        for (label, count) in other.panicked {
            *self.panicked.entry(label).or_default() += count;
        }
    }

    pub fn cases(&self) -> u64 {
        sum(self.compared.iter()) + sum(self.panicked.iter())
    }

    pub fn print(&self) {
        for (label, count) in &self.compared {
            println!("{count:9} {label}");
        }
        let numbers = sum(self.compared.iter().filter(|(label, _)| label.starts_with("number")));
        let verdicts = sum(self.compared.iter()) - numbers;
        println!("{verdicts} verdicts and {numbers} numbers, the same in both");
        println!(
            "{} where the Rust panics, 254 or 255 peers at a round in use (docs/DIFFERENCES.md); the plain judge and \
             the library answer alike:",
            sum(self.panicked.iter())
        );
        for (label, count) in &self.panicked {
            println!("{count:9} {label}");
        }
    }
}

fn sum<'a>(rows: impl Iterator<Item = (&'a String, &'a u64)>) -> u64 {
    rows.map(|(_, count)| count).sum()
}
