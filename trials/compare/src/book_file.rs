//! The cases of a file that have a book, against the answers in it; `program` has those of `tally`.

use book::file::{After, Case, moved, read};
use book::replay::{Renewed, renewed};
use book::{MARKS, Marks, Offer};
use oracle::file::blobs;
use oracle::sha256::sha256;
use wutherdish::lent::open as open_book;

use crate::file::expected;
use crate::lent::{FILL, Lent};

/// The rules by which a file was made and answered.
#[derive(Clone, Copy, PartialEq, Eq)]
pub enum Age {
    /// As now: the peers of a map stand first, and marks spread.
    Now,
    /// Maps are pairs of peer and digest.
    Pairs,
    /// They are, and a mark covers the previous point alone.
    Prev,
}

impl Age {
    /// The bytes of a file, in which maps are moved if they are pairs.
    pub fn bytes(self, path: &str) -> Result<Vec<u8>, String> {
        let bytes = std::fs::read(path).map_err(|e| format!("{path}: {e}"))?;
        match self {
            Self::Now => Ok(bytes),
            Self::Pairs | Self::Prev => moved(&bytes).ok_or_else(|| not_whole(path)),
        }
    }

    /// The cases with a book as they are now. Of an older file the plain book has to answer as the file says by the file's rules,
    /// and then answers by the library's; how many cases the rule for marks changes is said.
    pub fn renew(self, path: &str, cases: Vec<Case>) -> Result<Vec<Case>, String> {
        let marks = match self {
            Self::Now => return Ok(cases),
            Self::Pairs => MARKS,
            Self::Prev => Marks::Prev,
        };
        let Renewed { cases, others, answers } = renewed(cases, marks).map_err(|fault| format!("{path}: {fault}"))?;
        println!(
            "{path}: {} cases with a book, {} the same where marks spread; {others} others, {answers} of them in the \
             answer, are answered by the plain book",
            cases.len(),
            cases.len() - others
        );
        Ok(cases)
    }
}

pub fn not_whole(path: &str) -> String {
    format!("{path}: not a whole file of cases")
}

/// The cases of a file that have a book.
pub fn load(path: &str, bytes: &[u8]) -> Result<Vec<Case>, String> {
    blobs(bytes).and_then(read).ok_or_else(|| not_whole(path))
}

pub fn run(path: &str, bytes: &[u8], age: Age) -> Result<(), String> {
    let cases = age.renew(path, load(path, bytes)?)?;
    let (mut slice, mut lent, mut openings, mut offers) = (Vec::new(), Lent::default(), 0, 0);
    for (place, case) in cases.into_iter().enumerate() {
        let result = match case {
            Case::Tally { .. } => continue,
            Case::Open { settings, length, number } => {
                openings += 1;
                open(&mut vec![FILL; length], &settings, number)
            }
            Case::Begin { settings, length, number } => {
                openings += 1;
                slice = vec![FILL; length];
                open(&mut slice, &settings, number)
            }
            Case::Offer { offer, after } => {
                offers += 1;
                offer_to(&mut lent, &mut slice, &offer, &after)
            }
            Case::OfferTo { mut book, offer, after } => {
                offers += 1;
                offer_to(&mut lent, &mut book, &offer, &after)
            }
        };
        result.map_err(|difference| format!("{path}: case {place} of those with a book: {difference}"))?;
    }
    println!("{path}: {openings} openings and {offers} offers answered so, books by their sha256");
    Ok(())
}

/// An opened book is its settings and zeros; a refused one keeps its bytes.
fn open(slice: &mut [u8], settings: &[u8], expected: u8) -> Result<(), String> {
    let number = open_book(slice, settings);
    let filled = |bytes: &[u8], byte: u8| bytes.iter().all(|other| *other == byte);
    let laid_out = match slice.split_at_checked(settings.len()) {
        Some((front, rest)) if number == 0 => front == settings && filled(rest, 0),
        _ => filled(slice, FILL),
    };
    let same = number == expected && laid_out;
    if same {
        Ok(())
    } else {
        Err(format!("opening gives {number}, expected {expected}; as it is laid out: {laid_out}"))
    }
}

fn offer_to(lent: &mut Lent, slice: &mut [u8], offer: &Offer, after: &After) -> Result<(), String> {
    let expected = expected(&after.answer).ok_or("no whole answer")?;
    lent.offer(slice, offer);
    if !lent.is(&expected) {
        return Err(format!("the offer gives {}, expected {}, or another answer", lent.number, expected.number));
    }
    let same = sha256(slice)[..] == after.sha256;
    if same { Ok(()) } else { Err("the offer leaves other bytes in the book".to_string()) }
}
