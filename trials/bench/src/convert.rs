//! Records with full maps, converted both ways, beside a copy of their bytes.

use std::hint::black_box;

use inputs::points::bytes;
use oracle::arrangement::{Arrangement, move_maps};
use wutherdish::lent::{columns_to_pairs, pairs_to_columns};

use crate::cold;
use crate::once::result_of;
use crate::rounds::{count, median, rounds};

/// Records of each set, so that no call repeats the one before it.
const RECORDS: usize = 8;
const ROUNDS: usize = 301;

const WORDS: &str = "\
Converting. Records with full maps: all peers included, all but the author witnessed and in evidence.
Nanoseconds a call, medians of the rounds; each round runs the three ways one after another over the same records.
  columns  wutherdish_pairs_to_columns, of the records with pairs
  pairs    wutherdish_columns_to_pairs, of the same records with peers first
  copy     the bytes copied into the output, nothing else
";

const HEADER: &str = "                             nanoseconds a call    times the copy
peers  record bytes   columns     pairs      copy   columns   pairs";

/// Prints a row for each count of peers.
pub fn table(counts: &[usize]) -> Result<(), String> {
    println!("{WORDS}");
    println!("{ROUNDS} rounds, {RECORDS} records for each count of peers, one output for all");
    println!("{HEADER}");
    counts.iter().try_for_each(|&peers| {
        // few enough that other processes interrupt few rounds
        let calls = (40_000 / peers).next_multiple_of(RECORDS);
        Records::new(peers, RECORDS, 1).row(ROUNDS, calls)
    })
}

/// The same of records that together are longer than the caches, each with an output of its own.
pub fn cold_table(counts: &[usize]) -> Result<(), String> {
    println!("\n{WORDS}");
    println!("{} rounds, records of 128 MB together for each count of peers, an output for each", cold::ROUNDS);
    println!("{HEADER}");
    counts.iter().try_for_each(|&peers| {
        let records = cold::BYTES.div_ceil(bytes(peers, 1).records[0].len());
        Records::new(peers, records, records).row(cold::ROUNDS, records)
    })
}

/// Whether the first record is converted, for callgrind to count.
pub fn once(way: Way, peers: usize) -> bool {
    let mut records = Records::new(peers, 1, 1);
    result_of(&mut || records.convert(way, 0))
}

/// What is done with a record.
#[derive(Clone, Copy)]
pub enum Way {
    /// To peers first.
    Columns,
    /// Back.
    Pairs,
    Copy,
}

const WAYS: [Way; 3] = [Way::Columns, Way::Pairs, Way::Copy];

/// Records of one set, which are all as long, in both arrangements.
struct Records {
    peers: usize,
    columns: Vec<Vec<u8>>,
    pairs: Vec<Vec<u8>>,
    /// Outputs, of which the records take one after another.
    outs: Vec<Vec<u8>>,
}

impl Records {
    fn new(peers: usize, count: usize, outs: usize) -> Self {
        let columns = bytes(peers, count).records;
        let mut pairs = columns.clone();
        pairs.iter_mut().for_each(|record| move_maps(record, Arrangement::Pairs));
        let outs = vec![vec![0; columns[0].len()]; outs];
        Self { peers, columns, pairs, outs }
    }

    /// Prints the row of these, over `calls` calls a round that go round the records.
    fn row(mut self, many: usize, calls: usize) -> Result<(), String> {
        let records = self.columns.len();
        let rounds = rounds(many, WAYS, |way| count(0..calls, |call| self.convert(way, call % records)))?;
        let [columns, pairs, copy] = WAYS.map(|way| median(&rounds, |times| times[way as usize]));
        let times = |way: Way| median(&rounds, |times| times[way as usize] / times[Way::Copy as usize]);
        print!("{:5}  {:12}  {columns:8.0}  {pairs:8.0}  {copy:8.0}", self.peers, self.outs[0].len());
        println!("  {:8.2}  {:6.2}", times(Way::Columns), times(Way::Pairs));
        Ok(())
    }

    fn convert(&mut self, way: Way, place: usize) -> bool {
        let (columns, pairs) = (black_box(&self.columns[place]), black_box(&self.pairs[place]));
        let outs = self.outs.len();
        let (out, mut written) = (&mut self.outs[place % outs][..], 0);
        let number = match way {
            Way::Columns => pairs_to_columns(pairs, out, &mut written),
            Way::Pairs => columns_to_pairs(columns, out, &mut written),
            Way::Copy => {
                out.copy_from_slice(columns);
                written = columns.len() as u32;
                0
            }
        };
        black_box(&*out);
        (number, written as usize) == (0, columns.len())
    }
}
