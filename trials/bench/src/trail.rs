//! Judging with a trail beside judging, on points with and without reasons.

use std::hint::black_box;

use cases::random::Random;
use inputs::call::{Call, entry_count, judged_list};
use inputs::dear::Shape;
use inputs::faults::{FULL, VERSIONS, full, versions};
use oracle::PEER_BUFFER;
use oracle::file::Case;
use trail::{ROW, trail};
use wutherdish::lent::{self, ANSWER};

use crate::rounds::{count, median, rounds};

/// Points of each list, so that no call repeats the one before it.
const POINTS: usize = 2;
/// Versions of the author's point in the long lists; the longest list of all has 65,535 entries.
const LENGTHS: [usize; 2] = [1_000, 65_000];
/// Entries of the dearest inputs.
const DEAR: usize = 2_000;

const WORDS: &str = "
Judging with a trail. Microseconds a call, medians of the rounds; each round runs the calls over the same points one after
another. In \"trail\" the trail has eight bytes more than the list, which is room for certain, in \"exact\" as many as the rows take; a
ratio is its time divided by judging's in the same round.
  full maps   every dependency, and the targets of two indirect links, each one with full maps
  versions    so many other points of the author in the round before, and four peers' dependencies; by rising digests or in any order
  dearest     the dearest inputs of judging and of the trail that were found, with 2,000 entries at most
";

const HEADER: [&str; 2] = [
    "                                                                                   microseconds a call            ratio to judge",
    "input                                                  bytes  entries     rows     judge     trail     exact     trail   exact",
];

pub fn table(counts: &[usize]) -> Result<(), String> {
    println!("{WORDS}\n{}", HEADER.join("\n"));
    for &peers in counts {
        let calls = (400 / peers).next_multiple_of(POINTS);
        for faults in FULL {
            let cases = (0..POINTS).map(|place| full(faults, peers, place)).collect();
            Inputs::new(format!("{peers} peers, {}", faults.name), cases)?
                .row(calls, if peers > 50 { 101 } else { 301 })?;
        }
    }
    for length in LENGTHS {
        let rounds = if length > 10_000 { 11 } else { 51 };
        for (name, of) in VERSIONS {
            for (order, rising) in [("rising", true), ("any order", false)] {
                let cases = vec![versions(of, length, rising)];
                Inputs::new(format!("{length} versions, {name}, {order}"), cases)?.row(1, rounds)?;
            }
        }
    }
    for shape in Shape::answered() {
        let call = shape.make(&mut Random::new(1, 0), shape.most.min(DEAR)).call;
        if let Call::Case(case @ Case::Judge { .. }) | Call::Trail { case, .. } = call {
            Inputs::new(format!("dearest: {}", shape.name), vec![case])?.row(1, 31)?;
        }
    }
    Ok(())
}

#[derive(Clone, Copy)]
enum Way {
    Judge,
    Trail,
    Exact,
}

const WAYS: [Way; 3] = [Way::Judge, Way::Trail, Way::Exact];

/// Points that are judged in turn, and what each has to give.
struct Inputs {
    name: String,
    cases: Vec<Case>,
    /// The number, and how many rows.
    given: Vec<(u8, u32)>,
    peers: Vec<u8>,
    trail: Vec<u8>,
    entries: usize,
}

impl Inputs {
    fn new(name: String, cases: Vec<Case>) -> Result<Self, String> {
        let entries = cases.iter().map(entry_count).max().unwrap_or(0);
        let trail = vec![0; cases.iter().map(|case| judged_list(case).len()).max().unwrap_or(0) + ROW];
        let mut inputs = Self { name, cases, given: Vec::new(), peers: vec![0; PEER_BUFFER as usize], trail, entries };
        for place in 0..inputs.cases.len() {
            let (given, rows) = inputs.call(Way::Trail, place);
            inputs.check(place, given, rows)?;
            inputs.given.push((given, rows));
        }
        Ok(inputs)
    }

    /// The call's rows are the Rust's.
    fn check(&self, place: usize, number: u8, rows: u32) -> Result<(), String> {
        let expected = trail(&self.cases[place]).map_err(|why| format!("{}: {why}", self.name))?;
        let right = expected.rows.as_flattened() == &self.trail[..ROW * rows as usize];
        let refused = matches!(expected.answer, oracle::Answer::Number(expected) if expected == number);
        if right && (refused || number == 0) { Ok(()) } else { Err(format!("{}: the rows are others", self.name)) }
    }

    fn row(mut self, calls: usize, rounds_count: usize) -> Result<(), String> {
        let points = self.cases.len();
        let given = self.given.clone();
        let rounds = rounds(rounds_count, WAYS, |way| {
            count(0..calls, |call| {
                let place = call % points;
                let (number, rows) = self.call(way, place);
                number == given[place].0 && (matches!(way, Way::Judge) || rows == given[place].1)
            })
        })?;
        let [judge, trail, exact] = WAYS.map(|way| median(&rounds, |times| times[way as usize]) / 1e3);
        let [_, ratio, exact_ratio] =
            WAYS.map(|way| median(&rounds, |times| times[way as usize] / times[Way::Judge as usize]));
        println!(
            "{:52} {:8} {:8} {:8}  {judge:8.1}  {trail:8.1}  {exact:8.1}  {ratio:8.3}  {exact_ratio:6.3}",
            self.name,
            self.cases[0].size(),
            self.entries,
            given[0].1
        );
        Ok(())
    }

    /// The number, and by the trail's call how many rows.
    fn call(&mut self, way: Way, place: usize) -> (u8, u32) {
        let Self { cases, peers, trail, given, .. } = self;
        // as many bytes as the call gave rows when it was first made
        let room = if matches!(way, Way::Exact) { ROW * given[place].1 as usize } else { trail.len() };
        let Case::Judge { settings, schedule, record, leader, presence, list, .. } = black_box(&cases[place]) else {
            unreachable!("all are judge cases")
        };
        let (mut answer, mut rows) = ([0; ANSWER], 0);
        let number = match way {
            Way::Judge => lent::judge(settings, schedule, record, *leader, *presence, list, peers, &mut answer),
            Way::Trail | Way::Exact => {
                let trail = &mut trail[..room];
                lent::trail(settings, schedule, record, *leader, *presence, list, peers, trail, &mut rows, &mut answer)
            }
        };
        black_box(answer);
        (number, rows)
    }
}
