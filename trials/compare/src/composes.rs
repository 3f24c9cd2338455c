//! The writer of points: the drafts of a file, and generated ones, against the oracle's writer and reader of records.

use std::time::Instant;

use cases::drafts::{Drafted, drafted};
use compare::run::{Counts, Range, run};
use inputs::compose::compose;
use oracle::draft::{COMPOSE, Draft};
use oracle::file::blobs;
use oracle::numbers::{DOMAIN, OUTPUT, RECORD, TWICE};
use oracle::{read, write};

use crate::book_file::not_whole;
use crate::lent::FILL;

/// What the count holds before a call.
const COUNT: u32 = u32::from_ne_bytes([FILL; 4]);
/// Places that a thread takes at a time.
const BLOCK: u64 = 256;
/// Of so many places of a seed what the call left is changed, a byte at a time.
const CHANGED: u64 = 64;
/// But for longer outputs.
const SHORT: usize = 4_096;

/// A call, without what it is lent to write but the length of the output.
struct Call {
    draft: Draft,
    room: usize,
}

/// What it leaves.
#[derive(Clone, PartialEq, Eq)]
struct Left {
    number: u8,
    count: u32,
    out: Vec<u8>,
}

impl Call {
    fn made(&self) -> Left {
        let (mut out, mut count) = (vec![FILL; self.room], COUNT);
        let number = compose(&self.draft, &mut out, &mut count);
        Left { number, count, out }
    }

    /// The record, if it fits, at the front of the output.
    fn left(&self, composed: Result<&[u8], u8>) -> Option<Left> {
        let mut left = Left { number: 0, count: COUNT, out: vec![FILL; self.room] };
        match composed {
            Ok(record) => {
                left.out.get_mut(..record.len())?.copy_from_slice(record);
                left.count = record.len() as u32;
            }
            Err(number) => left.number = number,
        }
        Some(left)
    }

    /// What the call leaves, which has to be this.
    fn compare(&self, name: &str, composed: Result<&[u8], u8>) -> Result<Left, String> {
        let expected = self.left(composed).ok_or_else(|| format!("{name}: the record is longer than the output"))?;
        let left = self.made();
        match difference(&left, &expected) {
            None => Ok(left),
            Some(why) => Err(format!("an output of {} bytes, {name}: {why}\n{:02x?}", self.room, self.draft)),
        }
    }
}

/// What the library left and what it had to, where they part.
fn difference(left: &Left, expected: &Left) -> Option<String> {
    let place = left.out.iter().zip(&expected.out).position(|(left, expected)| left != expected);
    let same = (left.number, left.count, left.out.len()) == (expected.number, expected.count, expected.out.len());
    (!same || place.is_some()).then(|| {
        format!(
            "number {} and count {}, expected {} and {}; the first other byte of the output: {place:?}",
            left.number, left.count, expected.number, expected.count
        )
    })
}

/// The library and the writer beside it, against what a file says.
pub fn file(path: &str) -> Result<(), String> {
    let bytes = std::fs::read(path).map_err(|e| format!("{path}: {e}"))?;
    let cases = blobs(&bytes).ok_or_else(|| not_whole(path))?;
    let mut counts = Composes::default();
    for (place, (_, blobs)) in cases.iter().enumerate().filter(|(_, (kind, _))| *kind == COMPOSE) {
        let at = |why: String| format!("{path}: case {place}: {why}");
        let (call, composed) = of_file(blobs).ok_or_else(|| at("it is laid out otherwise".to_string()))?;
        if call.draft.composed(call.room).as_deref().map_err(|number| *number) != composed {
            return Err(at("the writer beside the library answers otherwise".to_string()));
        }
        counts.add(&call.compare("the file", composed).map_err(at)?);
    }
    counts.print();
    println!("{path}: {} drafts composed as the file says", counts.calls());
    Ok(())
}

/// A count stands as 0 beside a number, and then no record follows.
fn of_file<'a>(blobs: &[&'a [u8]]) -> Option<(Call, Result<&'a [u8], u8>)> {
    let (parts, &[room, answer]) = blobs.split_first_chunk()? else { return None };
    let room = u32::from_le_bytes(room.try_into().ok()?) as usize;
    let call = Call { draft: Draft::of_blobs(*parts)?, room };
    let (&[number, ref count @ ..], record) = answer.split_first_chunk::<5>()?;
    let count = u32::from_le_bytes(*count) as usize;
    let composed = match number {
        0 if record.len() == count => Ok(record),
        1.. if record.is_empty() && count == 0 => Err(number),
        _ => return None,
    };
    Some((call, composed))
}

/// How often each came.
#[derive(Default)]
struct Composes {
    composed: u64,
    /// The numbers 3, 4, 13 and 14.
    refused: [u64; 4],
    /// Drafts with more than one thing wrong.
    wrong_twice: u64,
    /// Of the drafts that were composed, those whose maps were handed over in another order.
    arranged: u64,
    /// Bytes of outputs, and other changes of what was left, each of which has to be seen as a difference.
    noticed: u64,
}

impl Counts for Composes {
    fn merge(&mut self, other: Self) {
        self.composed += other.composed;
        self.refused.iter_mut().zip(other.refused).for_each(|(sum, count)| *sum += count);
        self.wrong_twice += other.wrong_twice;
        self.arranged += other.arranged;
        self.noticed += other.noticed;
    }
}

impl Composes {
    fn add(&mut self, left: &Left) {
        match [RECORD, DOMAIN, TWICE, OUTPUT].iter().position(|number| *number == left.number) {
            Some(place) => self.refused[place] += 1,
            None => self.composed += 1,
        }
    }

    fn calls(&self) -> u64 {
        self.composed + self.refused.iter().sum::<u64>()
    }

    fn print(&self) {
        let [record, domain, twice, output] = self.refused;
        println!("{} composed; refused: {record} by 3, {domain} by 4, {twice} by 13, {output} by 14", self.composed);
    }

    /// The draft of a place. What is composed reads as the point that the parts are of.
    fn place(&mut self, seed: u64, place: u64) -> Result<(), String> {
        let Drafted { draft, room, expected, is_wrong_twice } = drafted(seed, place);
        let call = Call { draft, room };
        let record = expected.as_ref().map(write::record).map_err(|number| *number);
        let composed = record.as_deref().map_err(|number| *number);
        if call.draft.composed(room).as_deref().map_err(|number| *number) != composed {
            return Err("the writer beside the library answers otherwise".to_string());
        }
        let left = call.compare("the oracle's writer", composed)?;
        self.add(&left);
        self.wrong_twice += u64::from(is_wrong_twice);
        if let Ok(point) = &expected {
            if read::record(&left.out[..left.count as usize]).as_ref() != Some(point) {
                return Err("the oracle's reader reads another point".to_string());
            }
            let rising = Draft::of(point);
            let maps = |draft: &Draft| [draft.includes.clone(), draft.witness.clone(), draft.evidence.clone()];
            self.arranged += u64::from(maps(&rising) != maps(&call.draft));
        }
        if place < CHANGED && left.out.len() < SHORT {
            self.noticed += notice(&left).ok_or("a changed byte is no difference")?;
        }
        Ok(())
    }
}

/// Each change of what a call left is a difference; how many there were.
fn notice(left: &Left) -> Option<u64> {
    let mut changed = left.clone();
    for place in 0..left.out.len() {
        changed.out[place] ^= 1;
        difference(&changed, left)?;
        changed.out[place] = left.out[place];
    }
    let others = [
        Left { number: left.number + 1, ..left.clone() },
        Left { count: left.count ^ 1, ..left.clone() },
        Left { out: [&left.out[..], &[FILL]].concat(), ..left.clone() },
    ];
    others.iter().all(|other| difference(other, left).is_some()).then_some((left.out.len() + others.len()) as u64)
}

/// Generated drafts.
pub fn generated(range: &Range) -> Result<(), String> {
    let start = Instant::now();
    let counts = run(range, BLOCK, |composes: &mut Composes, place| composes.place(range.seed, place))?;
    counts.print();
    let seconds = start.elapsed().as_secs_f64();
    let Range { seed, count, threads } = range;
    println!("{} of these had more than one thing wrong", counts.wrong_twice);
    println!("{} of those that were composed had rows in another order", counts.arranged);
    println!("{} changes of what a call left, each a difference", counts.noticed);
    println!(
        "seed {seed}, {count} places: {} drafts in {seconds:.1} s, threads {threads}: no difference",
        counts.calls()
    );
    Ok(())
}
