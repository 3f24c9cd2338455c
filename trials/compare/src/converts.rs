//! The converters: those of a file, and those of generated records, against a converter that reads a point in one arrangement
//! and writes it in the other.

use std::time::Instant;

use cases::case;
use cases::random::Random;
use compare::damage::{damage, output_length};
use compare::kind::as_verify;
use compare::run::{Counts, Range, run};
use oracle::arrangement::{Arrangement, converted, move_maps};
use oracle::file::{Case, blobs};
use oracle::numbers::RECORD;
use wutherdish::lent::{columns_to_pairs, pairs_to_columns};

use crate::book_file::not_whole;
use crate::lent::FILL;

const CONVERT: u8 = 17;
/// What the count holds before a call.
const COUNT: u32 = u32::from_ne_bytes([FILL; 4]);
/// Places that a thread takes at a time.
const BLOCK: u64 = 256;

/// A call, without what it is lent to write but the length of the output.
struct Call {
    from: Arrangement,
    record: Vec<u8>,
    room: usize,
}

/// What it leaves.
#[derive(PartialEq, Eq, Debug)]
struct Left {
    number: u8,
    count: u32,
    out: Vec<u8>,
}

impl Call {
    fn made(&self) -> Left {
        let (mut out, mut count) = (vec![FILL; self.room], COUNT);
        let number = match self.from {
            Arrangement::Pairs => pairs_to_columns(&self.record, &mut out, &mut count),
            Arrangement::Columns => columns_to_pairs(&self.record, &mut out, &mut count),
        };
        Left { number, count, out }
    }

    fn expected(&self) -> Left {
        match converted(&self.record, self.from, self.room) {
            Ok(record) => self.converted(&record),
            Err(number) => self.refused(number),
        }
    }

    fn refused(&self, number: u8) -> Left {
        Left { number, count: COUNT, out: vec![FILL; self.room] }
    }

    /// The record, which fits, at the front of the output.
    fn converted(&self, record: &[u8]) -> Left {
        let mut left = Left { count: record.len() as u32, ..self.refused(0) };
        left.out[..record.len()].copy_from_slice(record);
        left
    }

    /// What the call left, which has to be this.
    fn compare(&self, name: &str, expected: &Left) -> Result<Left, String> {
        let left = self.made();
        if left == *expected {
            return Ok(left);
        }
        let place = left.out.iter().zip(&expected.out).position(|(left, expected)| left != expected);
        Err(format!(
            "from {:?}, an output of {} bytes: number {} and count {}, {name} {} and {}; the first other byte of the output: \
             {place:?}\nrecord {:02x?}",
            self.from, self.room, left.number, left.count, expected.number, expected.count, self.record
        ))
    }
}

/// The library and the converter beside it, against what a file says.
pub fn file(path: &str) -> Result<(), String> {
    let bytes = std::fs::read(path).map_err(|e| format!("{path}: {e}"))?;
    let cases = blobs(&bytes).ok_or_else(|| not_whole(path))?;
    let mut counts = Converts::default();
    for (place, (_, blobs)) in cases.iter().enumerate().filter(|(_, (kind, _))| *kind == CONVERT) {
        let at = |why: String| format!("{path}: case {place}: {why}");
        let (call, expected) = of_file(blobs).ok_or_else(|| at("it is laid out otherwise".to_string()))?;
        if call.expected() != expected {
            return Err(at("the converter beside the library answers otherwise".to_string()));
        }
        counts.add(&call, &call.compare("the file", &expected).map_err(at)?);
    }
    counts.print();
    println!("{path}: {} conversions as the file says", counts.calls());
    Ok(())
}

/// A count stands as 0 beside a number, and then no record follows.
fn of_file(blobs: &[&[u8]]) -> Option<(Call, Left)> {
    let [direction, record, room, answer] = *blobs else { return None };
    let from = match *direction {
        [0] => Arrangement::Pairs,
        [1] => Arrangement::Columns,
        _ => return None,
    };
    let room = u32::from_le_bytes(room.try_into().ok()?) as usize;
    let call = Call { from, record: record.to_vec(), room };
    let (&[number, ref count @ ..], record) = answer.split_first_chunk::<5>()?;
    let count = u32::from_le_bytes(*count) as usize;
    let left = match number {
        0 if record.len() == count && count <= room => call.converted(record),
        1.. if record.is_empty() && count == 0 => call.refused(number),
        _ => return None,
    };
    Some((call, left))
}

/// How often each came, by the arrangement and the number.
#[derive(Default)]
struct Converts {
    converted: [u64; 2],
    /// Of these, records with other bytes than before.
    changed: [u64; 2],
    unreadable: [u64; 2],
    short: [u64; 2],
}

impl Counts for Converts {
    fn merge(&mut self, other: Self) {
        let pairs = [
            (&mut self.converted, other.converted),
            (&mut self.changed, other.changed),
            (&mut self.unreadable, other.unreadable),
            (&mut self.short, other.short),
        ];
        pairs.into_iter().for_each(|(sums, counts)| sums.iter_mut().zip(counts).for_each(|(sum, count)| *sum += count));
    }
}

impl Converts {
    fn add(&mut self, call: &Call, left: &Left) {
        let from = call.from as usize;
        let row = match left.number {
            0 => &mut self.converted,
            RECORD => &mut self.unreadable,
            _ => &mut self.short,
        };
        row[from] += 1;
        self.changed[from] += u64::from(left.number == 0 && !left.out.starts_with(&call.record));
    }

    fn calls(&self) -> u64 {
        [self.converted, self.unreadable, self.short].as_flattened().iter().sum()
    }

    fn print(&self) {
        for (from, name) in ["pairs to columns", "columns to pairs"].into_iter().enumerate() {
            println!(
                "{name}: {} converted, {} of them to other bytes; {} unreadable, {} with too short an output",
                self.converted[from], self.changed[from], self.unreadable[from], self.short[from]
            );
        }
    }

    /// The record of a place in both arrangements, each to both converters; what is converted is converted back.
    fn place(&mut self, seed: u64, place: u64) -> Result<(), String> {
        let (Case::Verify { record, .. } | Case::Judge { record, .. }) = as_verify(case(seed, place));
        let mut random = Random::new(!seed, place);
        let mut records = [record.clone(), record];
        move_maps(&mut records[0], Arrangement::Pairs);
        for mut record in records {
            if random.chance(1, 2) {
                (0..random.pick(&[1, 1, 2])).for_each(|_| damage(&mut random, &mut record));
            }
            for from in Arrangement::ALL {
                let room = output_length(&mut random, record.len());
                self.there_and_back(Call { from, record: record.clone(), room })?;
            }
        }
        Ok(())
    }

    fn there_and_back(&mut self, call: Call) -> Result<(), String> {
        let left = call.compare("expected", &call.expected())?;
        self.add(&call, &left);
        if left.number != 0 {
            return Ok(());
        }
        let length = call.record.len();
        let back = Call { from: call.from.other(), record: left.out[..length].to_vec(), room: length };
        back.compare("back from what was converted", &back.converted(&call.record)).map(drop)
    }
}

/// The records of generated cases, damaged or not.
pub fn generated(range: &Range) -> Result<(), String> {
    let start = Instant::now();
    let counts = run(range, BLOCK, |converts: &mut Converts, place| converts.place(range.seed, place))?;
    counts.print();
    let seconds = start.elapsed().as_secs_f64();
    let Range { seed, count, threads } = range;
    let calls = counts.calls();
    println!(
        "seed {seed}, {count} places: {calls} conversions in {seconds:.1} s, threads {threads}, each there and back: no \
         difference"
    );
    Ok(())
}
