//! The cases of a file, answered by a plain book.

use oracle::arrangement::{Arrangement, move_maps};
use oracle::file::answer_bytes;
use oracle::sha256::sha256;

use crate::file::{After, Case};
use crate::{MARKS, Marks, Offer, offer_by, open, tally_by};

/// What lent bytes hold before a call.
pub const FILL: u8 = 0xA5;

/// The book that the offers of a file go to, whose marks go this far.
pub struct Replay {
    marks: Marks,
    /// Of the maps in the book when its sha256 is taken.
    arrangement: Arrangement,
    slice: Vec<u8>,
}

impl Replay {
    pub fn new(marks: Marks) -> Self {
        Self { marks, arrangement: Arrangement::Columns, slice: Vec::new() }
    }

    /// For a file of pairs that was moved: a sha256 in it is that of the book with pairs.
    pub fn of_pairs(marks: Marks) -> Self {
        Self { arrangement: Arrangement::Pairs, ..Self::new(marks) }
    }

    /// The case with what the plain book answers and leaves; no answer where the Rust panics as isn't known.
    pub fn answer(&mut self, case: &Case) -> Case {
        match case.clone() {
            Case::Open { settings, length, .. } => {
                let (number, _) = opened(&settings, length);
                Case::Open { settings, length, number }
            }
            Case::Begin { settings, length, .. } => {
                let (number, slice) = opened(&settings, length);
                self.slice = slice;
                Case::Begin { settings, length, number }
            }
            Case::Offer { offer, .. } => {
                let after = offered(self.marks, self.arrangement, &mut self.slice, &offer);
                Case::Offer { offer, after }
            }
            Case::OfferTo { book, offer, .. } => {
                let after = offered(self.marks, self.arrangement, &mut book.clone(), &offer);
                Case::OfferTo { book, offer, after }
            }
            Case::Tally { input, .. } => {
                let output = tally_by(self.marks, &input).into_bytes();
                Case::Tally { input, output }
            }
        }
    }
}

/// A slice that is opened becomes settings and zeros; one that isn't keeps its bytes.
fn opened(settings: &[u8], length: usize) -> (u8, Vec<u8>) {
    let mut slice = vec![FILL; length];
    let number = open(&mut slice, settings);
    let (front, rest) = if number == 0 { (settings, 0) } else { (&[][..], FILL) };
    let is_laid_out = slice.starts_with(front) && slice[front.len()..].iter().all(|byte| *byte == rest);
    assert!(is_laid_out, "opening gives {number} and leaves other bytes");
    (number, slice)
}

fn offered(marks: Marks, arrangement: Arrangement, slice: &mut [u8], given: &Offer) -> After {
    let mut peers = vec![FILL; given.peer_buffer as usize];
    let answer = offer_by(marks, slice, given, &mut peers);
    let sha256 = match arrangement {
        Arrangement::Columns => sha256(slice),
        Arrangement::Pairs => {
            let mut moved = slice.to_vec();
            move_maps(&mut moved, arrangement);
            sha256(&moved)
        }
    };
    After { sha256: sha256.to_vec(), answer: answer_bytes(&answer).unwrap_or_default() }
}

/// The cases of an older file, as they are now.
pub struct Renewed {
    pub cases: Vec<Case>,
    /// How many are others by the rule for marks: another answer or output, or other bytes in the book.
    pub others: usize,
    /// How many of them have another answer or output.
    pub answers: usize,
}

/// Of a file of pairs that was moved, in which marks go this far. Fails where the plain book, whose marks go as far, answers
/// otherwise than the file says, or leaves a book that is another one when it is moved back: so what differs after all differs
/// by the rule for marks.
pub fn renewed(file: Vec<Case>, marks: Marks) -> Result<Renewed, String> {
    let (mut before, mut spread, mut now) = (Replay::of_pairs(marks), Replay::of_pairs(MARKS), Replay::new(MARKS));
    let mut renewed = Renewed { cases: Vec::with_capacity(file.len()), others: 0, answers: 0 };
    for (place, case) in file.into_iter().enumerate() {
        if before.answer(&case) != case {
            return Err(format!("case {place} of those with a book: the plain book answers otherwise"));
        }
        let spread = spread.answer(&case);
        renewed.others += usize::from(spread != case);
        renewed.answers += usize::from(spread.answer() != case.answer());
        renewed.cases.push(now.answer(&case));
    }
    Ok(renewed)
}
