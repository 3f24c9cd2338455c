//! One offer to books of many entries, and a plain pass over their bytes.

use std::hint::black_box;

use inputs::clock::timed;
use inputs::dag::Dag;
use oracle::answer::VALID;
use oracle::numbers::KEPT;
use wutherdish::lent::{self, ANSWER, PEER_BUFFER};

use crate::pass::sum;
use crate::rounds::{count, median, rounds};

/// Peers and entries. A book keeps 4,096 entries, so one is left for the offer; 4,096 of 100 peers are longer than the
/// longest slice, and 100 of them are less than the two rounds that a point with full maps depends on, as are 500 of 253.
const BOOKS: [(usize, usize); 9] =
    [(4, 100), (4, 1_000), (4, 4_095), (13, 100), (13, 1_000), (13, 4_095), (100, 300), (100, 1_000), (253, 600)];

/// How deep a certificate goes.
const HISTORIES: [u8; 2] = [20, 255];

const ROUNDS: usize = 101;
/// Bytes that a round reads in each way, about.
const BYTES: usize = 2_000_000;
/// How many of the last entries are offered once, to see that the book is what offers leave.
const CHECKED: usize = 100;

/// No author leads its round.
const LEADER: u8 = 0;

const WORDS: &str = "
Offering. Books of valid points, round by round: each point includes all points of the round below it, and witnesses all
but its author's of the one below that. The next point is offered. Nanoseconds a call, medians of the rounds; each round
runs the ways over the same slice, which has room for one entry more.
  offer    wutherdish_offer: the list is needed, the certificate of the previous point spreads over the book, where that
           point alone is not marked yet, all entries of the list are found, the point is valid and is kept; what that
           changes is put back after each call, and the time of that taken off
  refused  the same with a point that is kept already, so number 11: the book is read, and the point looked up
  pass     the slice summed as words of 64 bits, nothing else
";

const HEADER: [&str; 2] = [
    "                                                        nanoseconds a call    ratio to the pass",
    "peers  entries  history  bytes used  slice bytes      offer    refused       pass    offer  refused",
];

/// What is done with the slice.
#[derive(Clone, Copy)]
enum Way {
    Offer,
    Refused,
    Pass,
}

const WAYS: [Way; 3] = [Way::Offer, Way::Refused, Way::Pass];

/// Prints a row for each book.
pub fn table() -> Result<(), String> {
    println!("{WORDS}\n{ROUNDS} rounds\n{}", HEADER.join("\n"));
    for ((peers, entries), history) in BOOKS.into_iter().flat_map(|book| HISTORIES.map(|history| (book, history))) {
        let dag = Dag::new(peers, entries + 1).with_history(history);
        let mut offering = Offering::new(&dag, entries)?;
        let calls = (BYTES / offering.slice.len()).max(1);
        let rounds = rounds(ROUNDS, WAYS, |way| offering.time(way, calls))?;
        print!("{peers:5}  {entries:7}  {history:7}  {:10}  {:11}", offering.used, offering.slice.len());
        print_times(&rounds);
    }
    Ok(())
}

fn print_times(rounds: &[[f64; 3]]) {
    let [offer, refused, pass] = WAYS.map(|way| median(rounds, |times| times[way as usize]));
    let ratio = |way: Way| median(rounds, |times| times[way as usize] / times[Way::Pass as usize]);
    print!("  {offer:9.0}  {refused:9.0}  {pass:9.0}");
    println!("  {:7.2}  {:7.2}", ratio(Way::Offer), ratio(Way::Refused));
}

/// A book of the first points of a DAG, to which the next one is offered.
#[derive(Clone)]
pub struct Offering<'a> {
    dag: &'a Dag,
    entries: usize,
    slice: Vec<u8>,
    used: usize,
    prev_flag: usize,
    peers: Vec<u8>,
}

impl<'a> Offering<'a> {
    pub fn new(dag: &'a Dag, entries: usize) -> Result<Self, String> {
        let laid_out = entries.saturating_sub(CHECKED);
        let mut offering = Self {
            dag,
            entries,
            slice: dag.book(laid_out, entries + 1),
            used: dag.start(entries),
            prev_flag: dag.prev_flag(entries),
            peers: vec![0; PEER_BUFFER],
        };
        for place in laid_out..=entries {
            offering.keep(place)?;
        }
        offering.put_back();
        offering.check(entries)?;
        Ok(offering)
    }

    /// Offers a point, which has to be valid and kept.
    fn keep(&mut self, place: usize) -> Result<(), String> {
        match self.offer(place) {
            (0, VALID) => self.check(place + 1),
            given => Err(format!("the point at {place} is not valid: {given:?}")),
        }
    }

    /// The slice has to be the book of n points.
    fn check(&self, points: usize) -> Result<(), String> {
        let same = self.slice == self.dag.book(points, self.entries + 1);
        if same { Ok(()) } else { Err(format!("the slice is not the book of {points} points")) }
    }

    /// Gives the number and the verdict.
    pub fn offer(&mut self, place: usize) -> (u8, u8) {
        let mut answer = [0; ANSWER];
        let book = black_box(&mut self.slice[..]);
        let record = self.dag.record(place);
        let number = lent::offer(book, &self.dag.schedule, LEADER, record, &mut self.peers, &mut answer);
        (number, answer[0])
    }

    pub fn slice(&self) -> &[u8] {
        &self.slice
    }

    /// Removes the last entry, and the mark that came with it.
    fn put_back(&mut self) {
        let slice = black_box(&mut self.slice[..]);
        slice[self.used..].fill(0);
        slice[self.prev_flag] = 0;
    }

    /// Nanoseconds a call, over `calls` calls. Each has to give what its way is about. What it takes to put the slice back
    /// is measured too, and taken off.
    fn time(&mut self, way: Way, calls: usize) -> Result<f64, String> {
        let all = count(0..calls, |_| {
            let right = match way {
                Way::Offer => self.offer(self.entries) == (0, VALID),
                Way::Refused => self.offer(self.entries - 1).0 == KEPT,
                Way::Pass => self.pass(),
            };
            self.put_back();
            right
        })?;
        let ((), putting_back) = timed(|| (0..calls).for_each(|_| self.put_back()));
        Ok(all - putting_back.as_nanos() as f64 / calls as f64)
    }

    fn pass(&self) -> bool {
        black_box(sum(black_box(&self.slice)));
        true
    }
}
