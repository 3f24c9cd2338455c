//! Points that pass verification, verified in four ways.

use std::hint::black_box;

use inputs::points::{Bytes, bytes};
use oracle::answer::PASSED;
use oracle::steps::{PointInfo, Steps, read_record};
use oracle::{direct, numbers};
use wutherdish::lent::{self, ANSWER, PEER_BUFFER};

use crate::once::result_of;
use crate::rounds::{count, median, rounds};

/// Points of each set, so that no call repeats the one before it.
const POINTS: usize = 8;
const ROUNDS: usize = 301;

const WORDS: &str = "\
Verifying. Points that pass with full maps: all peers included, all but the author witnessed and in evidence.
Nanoseconds a call, medians of the rounds; each round runs the four ways one after another over the same points.
  library  wutherdish_verify, from bytes: settings, schedule and record are read in every call
  oracle   the Rust from the record's bytes: the oracle's reading of document 01's record into the source's PointInfo,
           its maps built and freed, then BasicVerifier::verify; settings and schedule are there already
  direct   the same with the direct reader
  alone    BasicVerifier::verify alone, on a PointInfo that is there already
";

/// Prints a row for each count of peers.
pub fn table(counts: &[usize]) -> Result<(), String> {
    println!("{WORDS}");
    println!("{ROUNDS} rounds, {POINTS} points for each count of peers");
    println!("                             nanoseconds a call       ratio to the library");
    println!("peers  record bytes   library    oracle    direct     alone   oracle  direct   alone");
    for &peers in counts {
        let mut points = Points::new(peers, POINTS)?;
        // few enough that other processes interrupt few rounds
        let calls = (4_000 / peers).next_multiple_of(POINTS);
        let rounds = rounds(ROUNDS, WAYS, |way| points.time(way, calls))?;
        print!("{peers:5}  {:12}", points.bytes.records[0].len());
        print_times(&rounds);
    }
    Ok(())
}

fn print_times(rounds: &[[f64; 4]]) {
    let [library, oracle, direct, alone] = WAYS.map(|way| median(rounds, |times| times[way as usize]));
    let ratio = |way: Way| median(rounds, |times| times[way as usize] / times[Way::Library as usize]);
    print!("  {library:8.0}  {oracle:8.0}  {direct:8.0}  {alone:8.0}");
    println!("   {:6.2}  {:6.2}  {:6.2}", ratio(Way::Oracle), ratio(Way::Direct), ratio(Way::Alone));
}

/// Whether the first point passes, for callgrind to count.
pub fn once(way: Way, peers: usize) -> Result<bool, String> {
    let mut points = Points::new(peers, 1)?;
    Ok(result_of(&mut || points.passes(way, 0)))
}

/// How a point is verified.
#[derive(Clone, Copy)]
pub enum Way {
    /// The static library, from the bytes of settings, schedule and record.
    Library,
    /// The Rust, from the record's bytes by the oracle's reader.
    Oracle,
    /// The Rust, from the record's bytes by the direct reader.
    Direct,
    /// The Rust, on a record that is already read.
    Alone,
}

const WAYS: [Way; 4] = [Way::Library, Way::Oracle, Way::Direct, Way::Alone];

/// The points of one set, as bytes and as the source's types.
struct Points {
    bytes: Bytes,
    steps: Steps,
    infos: Vec<PointInfo>,
    peers: Vec<u8>,
}

impl Points {
    fn new(peers: usize, points: usize) -> Result<Self, String> {
        let bytes = bytes(peers, points);
        let unreadable = || format!("a point of {peers} peers is unreadable");
        let read = numbers::before(&bytes.settings, &bytes.schedule, &bytes.records[0], 0, 0, oracle::PEER_BUFFER)
            .map_err(|_| unreadable())?;
        let infos = bytes.records.iter().map(|record| read_record(record)).collect::<Option<_>>();
        let infos = infos.ok_or_else(unreadable)?;
        Ok(Self { bytes, steps: Steps::new(&read), infos, peers: vec![0; PEER_BUFFER] })
    }

    /// Nanoseconds a call, over `calls` calls that go round the points. Every point has to pass.
    fn time(&mut self, way: Way, calls: usize) -> Result<f64, String> {
        let points = self.infos.len();
        count(0..calls, |call| self.passes(way, call % points))
    }

    fn passes(&mut self, way: Way, place: usize) -> bool {
        let (settings, schedule) = (black_box(&self.bytes.settings), black_box(&self.bytes.schedule));
        let record = black_box(&self.bytes.records[place]);
        match way {
            Way::Library => {
                let mut answer = [0; ANSWER];
                let number = lent::verify(settings, schedule, record, &mut self.peers, &mut answer);
                (number, answer[0]) == (0, PASSED)
            }
            Way::Oracle => read_record(record).is_some_and(|info| self.steps.passes(&info)),
            Way::Direct => direct::record(record).is_some_and(|info| self.steps.passes(&info)),
            Way::Alone => self.steps.passes(black_box(&self.infos[place])),
        }
    }
}
