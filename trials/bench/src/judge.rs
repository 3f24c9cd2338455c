//! Valid points with full lists, judged in four ways, and a plain pass over their bytes.

use std::hint::black_box;

use inputs::points::{Bytes, bytes_with_lists};
use oracle::answer::VALID;
use oracle::numbers::{self, Read};
use oracle::steps::{DagRound, Judging};
use oracle::{Answer, PEER_BUFFER, direct};
use wutherdish::lent::{self, ANSWER};

use crate::once::result_of;
use crate::pass::sum;
use crate::rounds::{count, median, rounds};

/// The author leads no round, and all rounds are present.
const LEADER: u8 = 0;
const PRESENCE: u8 = 3;

const WORDS: &str = "
Judging. Valid points with full maps and full lists: every dependency, and the targets of two indirect links, each one
valid with full maps. Microseconds a call, medians of the rounds; each round runs the ways over the same points.
  library  wutherdish_judge, from bytes: settings, schedule, record and list are read in every call
  pass     the same bytes summed as words of 64 bits, nothing else
  oracle   the Rust from the same bytes: the oracle's reading, its numbers 1 to 9, the source's types and the rounds of a
           DAG built and freed, BasicVerifier::verify and Verifier::validate
  direct   the record and every record of the list read by the direct reader, all kept until the verdict and then freed;
           BasicVerifier::verify and Verifier::validate in a DAG that is there already: none is built of what was read,
           and no number is tested
  alone    the same, and nothing is read
";

const HEADER: [&str; 2] = [
    "                                         microseconds a call     ratio to the library    gigabytes a second",
    "peers       bytes  library      pass    oracle    direct     alone   oracle  direct   alone   library    pass",
];

/// Whether the first point is valid, for callgrind to count.
pub fn once(way: Way, peers: usize) -> Result<bool, String> {
    let (bytes, lists) = bytes_with_lists(peers, 1);
    let points = Points::new(&bytes, &lists)?;
    let judgings = points.judgings()?;
    let round = judgings[0].round().ok_or("no DAG gives a list")?;
    let mut peers = [0; PEER_BUFFER as usize];
    Ok(result_of(&mut || match way {
        Way::Library => points.library(0, &mut peers),
        Way::Pass => points.pass(0),
        Way::Oracle => points.oracle(0),
        Way::Direct => points.direct(0, &judgings[0], &round),
        Way::Alone => judgings[0].is_valid(round.clone()),
    }))
}

/// How a point is judged, or its bytes are read.
#[derive(Clone, Copy)]
pub enum Way {
    Library,
    Pass,
    Oracle,
    Direct,
    Alone,
}

const WAYS: [Way; 5] = [Way::Library, Way::Pass, Way::Oracle, Way::Direct, Way::Alone];

/// Prints a row for each count of peers.
pub fn table(counts: &[usize]) -> Result<(), String> {
    println!("{WORDS}\n{}", HEADER.join("\n"));
    for &peers in counts {
        let (points, count) = points_and_rounds(peers);
        let (bytes, lists) = bytes_with_lists(peers, points);
        let points = Points::new(&bytes, &lists)?;
        let judgings = points.judgings()?;
        let calls = (400 / peers).next_multiple_of(lists.len());
        let rounds = rounds(count, WAYS, |way| points.time(way, &judgings, calls))?;
        print_row(peers, points.size(), &rounds);
    }
    Ok(())
}

/// More than one point, so that no call repeats the one before it; the lists of many peers are long.
fn points_and_rounds(peers: usize) -> (usize, usize) {
    if peers > 50 { (2, 31) } else { (8, 301) }
}

fn print_row(peers: usize, size: usize, rounds: &[[f64; 5]]) {
    let times = WAYS.map(|way| median(rounds, |times| times[way as usize]));
    let ratio = |way: Way| median(rounds, |times| times[way as usize] / times[Way::Library as usize]);
    print!("{peers:5}  {size:10}");
    times.iter().for_each(|time| print!("  {:8.1}", time / 1e3));
    print!("   {:6.2}  {:6.2}  {:6.2}", ratio(Way::Oracle), ratio(Way::Direct), ratio(Way::Alone));
    let [library, pass, ..] = times;
    println!("  {:8.2}  {:6.2}", size as f64 / library, size as f64 / pass);
}

/// The points of one set with their lists.
struct Points<'a> {
    bytes: &'a Bytes,
    lists: &'a [Vec<u8>],
    reads: Vec<Read>,
}

impl<'a> Points<'a> {
    fn new(bytes: &'a Bytes, lists: &'a [Vec<u8>]) -> Result<Self, String> {
        let read =
            |record: &Vec<u8>| numbers::before(&bytes.settings, &bytes.schedule, record, LEADER, PRESENCE, PEER_BUFFER);
        let reads = bytes.records.iter().map(read).collect::<Result<_, _>>();
        Ok(Self { bytes, lists, reads: reads.map_err(|number| format!("a point is refused by {number}"))? })
    }

    /// The points and their lists as the source's types.
    fn judgings(&self) -> Result<Vec<Judging<'_>>, String> {
        let judgings = self.reads.iter().zip(self.lists).map(|(read, list)| Judging::new(read, list));
        judgings.collect::<Option<_>>().ok_or_else(|| "a list is refused".to_string())
    }

    /// What a call of the first point reads.
    fn size(&self) -> usize {
        let Bytes { settings, schedule, records } = self.bytes;
        settings.len() + schedule.len() + records[0].len() + self.lists[0].len()
    }

    /// Nanoseconds a call, over `calls` calls that go round the points. Every point has to be valid.
    fn time(&self, way: Way, judgings: &[Judging<'_>], calls: usize) -> Result<f64, String> {
        let places = (0..calls).map(|call| call % self.lists.len());
        match way {
            Way::Library => {
                let mut peers = [0; PEER_BUFFER as usize];
                count(places, |place| self.library(place, &mut peers))
            }
            Way::Pass => count(places, |place| self.pass(place)),
            Way::Oracle => count(places, |place| self.oracle(place)),
            Way::Direct | Way::Alone => {
                let rounds: Option<Vec<DagRound>> = places.clone().map(|place| judgings[place].round()).collect();
                let rounds = rounds.ok_or("no DAG gives a list")?;
                count(places.zip(&rounds), |(place, round)| match way {
                    Way::Direct => self.direct(place, &judgings[place], round),
                    _ => judgings[place].is_valid(round.clone()),
                })
            }
        }
    }

    fn library(&self, place: usize, peers: &mut [u8]) -> bool {
        let Bytes { settings, schedule, records } = black_box(self.bytes);
        let (record, list) = (&records[place], &self.lists[place]);
        let mut answer = [0; ANSWER];
        let number = lent::judge(settings, schedule, record, LEADER, PRESENCE, list, peers, &mut answer);
        (number, answer[0]) == (0, VALID)
    }

    fn pass(&self, place: usize) -> bool {
        let Bytes { settings, schedule, records } = black_box(self.bytes);
        let parts = [settings, schedule, &records[place], &self.lists[place]];
        black_box(parts.map(|part| sum(part)));
        true
    }

    fn oracle(&self, place: usize) -> bool {
        let Bytes { settings, schedule, records } = black_box(self.bytes);
        let (record, list) = (&records[place], &self.lists[place]);
        let answer = oracle::judge(settings, schedule, record, LEADER, PRESENCE, list, PEER_BUFFER);
        matches!(answer, Answer::Verdict(verdict) if verdict.kind == VALID)
    }

    fn direct(&self, place: usize, judging: &Judging<'_>, round: &DagRound) -> bool {
        let (record, list) = (&black_box(self.bytes).records[place], &self.lists[place]);
        let read = (direct::record(record), direct::records(list));
        let valid = judging.is_valid(round.clone());
        matches!(black_box(&read), (Some(_), Some(_))) && valid
    }
}
