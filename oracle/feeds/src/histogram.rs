//! How often each answer and each feature came.

use std::collections::BTreeMap;

use book::Book;
use cases::histogram::label;
use oracle::Answer;
use oracle::file::Case;

use crate::Step;
use crate::feature::features;

#[derive(Default)]
pub struct Histogram {
    answers: BTreeMap<String, u64>,
    features: BTreeMap<&'static str, u64>,
}

impl Histogram {
    /// Adds a step that led to this book.
    pub fn add(&mut self, book: &Book, step: &Step) {
        self.add_label(&step.offered.answer, step.offered.list.clone());
        for feature in features(book, step) {
            *self.features.entry(feature).or_default() += 1;
        }
    }

    /// Adds an answer alone.
    pub fn add_answer(&mut self, answer: &Answer) {
        self.add_label(answer, None);
    }

    /// As the histogram of cases names it; of a list it looks at the indirect entries.
    fn add_label(&mut self, answer: &Answer, list: Option<Vec<u8>>) {
        let case = Case::Judge {
            settings: Vec::new(),
            schedule: Vec::new(),
            record: Vec::new(),
            leader: 0,
            presence: 3,
            list: list.unwrap_or_default(),
            peer_buffer: 0,
        };
        *self.answers.entry(label(&case, answer)).or_default() += 1;
    }

    pub fn merge(&mut self, other: Self) {
        for (label, count) in other.answers {
            *self.answers.entry(label).or_default() += count;
        }
        for (feature, count) in other.features {
            *self.features.entry(feature).or_default() += count;
        }
    }

    pub fn offers(&self) -> u64 {
        self.answers.values().sum()
    }

    pub fn print(&self) {
        for (label, count) in &self.answers {
            println!("{count:9} {label}");
        }
        for (feature, count) in &self.features {
            println!("{count:9} {feature}");
        }
    }
}
