//! The dearest inputs that were found, of each call, beside typical ones.

use std::time::Duration;

use cases::random::Random;
use inputs::call::Call;
use inputs::clock::timed;
use inputs::compose::compose;
use inputs::dear::{Made, Shape};
use oracle::arrangement::Arrangement;
use oracle::file::Case;
use oracle::question::Question;
use wutherdish::lent::{self, ANSWER};

use crate::once::result_of;
use crate::rounds::repeated;

/// Shapes that can be longer are made with half of this count and with this count first.
const START: usize = 8_192;
/// A shape is made with its greatest count if it would take no longer by the square of its count.
const BOUND: Duration = Duration::from_secs(5);

const WORDS: &str = "\
The dearest inputs that were found. Bytes are all that the call is lent to read, entries those of the list or the book,
in verify the rows of the maps; times are the processor's, medians of up to 31 calls. Where a shape can be longer and would
then take over 5 s by the square of its count, it stands here with 4,096 and 8,192 entries; `bench worst full` runs it whole.
Beside a call that judges and then looks at the list again stands what judging takes of the same, and how many times of it the call;
a trail, and a list of what can be forced, has room for all rows but not for certain, so that they are counted before they are written.

| call | input | bytes | entries | number | µs | ns a byte | ns an entry | judging µs | times |
|---|---|---|---|---|---|---|---|---|---|";

/// Prints a row for each shape, or two.
pub fn table(full: bool) -> Result<(), String> {
    println!("{WORDS}");
    for shape in Shape::all() {
        if shape.most <= START {
            Row::measure(&shape, shape.most).print(&shape);
            continue;
        }
        let rows = [START / 2, START].map(|count| Row::measure(&shape, count));
        let times = shape.most as f64 / START as f64;
        if full || rows[1].took.mul_f64(times * times) < BOUND {
            Row::measure(&shape, shape.most).print(&shape);
        } else {
            rows.iter().for_each(|row| row.print(&shape));
        }
    }
    Ok(())
}

/// Makes the call of a shape once, with its greatest count, for callgrind to count. Shapes are numbered from 1, as they
/// stand in the table.
pub fn once(number: usize) -> Result<(), String> {
    let shapes = Shape::all();
    let shape = number.checked_sub(1).and_then(|place| shapes.get(place));
    let shape = shape.ok_or_else(|| format!("there are {} rows", shapes.len()))?;
    let Made { call, .. } = shape.make(&mut Random::new(1, 0), shape.most);
    let mut lent = Lent::new(&call);
    let given = result_of(&mut || lent.call(&call));
    println!("{}: {given}", shape.name);
    Ok(())
}

struct Row {
    call: &'static str,
    bytes: usize,
    entries: usize,
    number: u8,
    took: Duration,
    /// What judging alone took, of a call that judges first.
    judging: Option<Duration>,
}

impl Row {
    fn measure(shape: &Shape, count: usize) -> Self {
        let Made { call, entries } = shape.make(&mut Random::new(1, 0), count);
        let (number, took) = median(&call);
        let judging = call.judging().map(|judging| median(&judging).1);
        let bytes = call.inputs().iter().map(|(_, bytes)| bytes.len()).sum::<usize>() + Lent::new(&call).book.len();
        Self { call: Call::NAMES[call.kind()], bytes, entries, number, took, judging }
    }

    fn print(&self, shape: &Shape) {
        let Self { call, bytes, entries, number, took, judging } = self;
        let nanoseconds = took.as_nanos() as f64;
        let each = if *entries == 0 { String::new() } else { format!("{:.0}", nanoseconds / *entries as f64) };
        let name = if shape.is_typical { format!("typical: {}", shape.name) } else { shape.name.to_string() };
        print!("| {call} | {name} | {bytes} | {entries} | {number} | {:.1} ", nanoseconds / 1e3);
        print!("| {:.2} | {each} |", nanoseconds / *bytes as f64);
        match judging.map(|took| took.as_nanos() as f64) {
            Some(judging) => println!(" {:.1} | {:.2} |", judging / 1e3, nanoseconds / judging),
            None => println!(" | |"),
        }
    }
}

/// What a call gives, and the median of its times.
fn median(call: &Call) -> (u8, Duration) {
    repeated(|| {
        let mut lent = Lent::new(call);
        timed(|| lent.call(call))
    })
}

/// What a call may write.
struct Lent {
    book: Vec<u8>,
    peers: Vec<u8>,
    answer: [u8; ANSWER],
    output: Vec<u8>,
    count: u32,
}

impl Lent {
    fn new(call: &Call) -> Self {
        let book = match call {
            Call::Open { length, .. } => vec![1; *length],
            Call::Offer { book, .. } => book.clone().unwrap_or_default(),
            _ => Vec::new(),
        };
        let [peers, output] = [call.peer_buffer(), call.output()].map(|length| vec![0; length.unwrap_or(0)]);
        Self { book, peers, answer: [0; ANSWER], output, count: 0 }
    }

    fn call(&mut self, call: &Call) -> u8 {
        let Self { book, peers, answer, output, count } = self;
        match call {
            Call::Case(Case::Verify { settings, schedule, record, .. }) => {
                lent::verify(settings, schedule, record, peers, answer)
            }
            Call::Case(Case::Judge { settings, schedule, record, leader, presence, list, .. }) => {
                lent::judge(settings, schedule, record, *leader, *presence, list, peers, answer)
            }
            Call::Open { settings, .. } => lent::open(book, settings),
            Call::Offer { offer, .. } => lent::offer(book, &offer.schedule, offer.leader, &offer.record, peers, answer),
            Call::Convert { from: Arrangement::Pairs, record, .. } => lent::pairs_to_columns(record, output, count),
            Call::Convert { from: Arrangement::Columns, record, .. } => lent::columns_to_pairs(record, output, count),
            Call::Compose { draft, .. } => compose(draft, output, count),
            Call::Trail { case: Case::Judge { settings, schedule, record, leader, presence, list, .. }, .. } => {
                lent::trail(settings, schedule, record, *leader, *presence, list, peers, output, count, answer)
            }
            Call::Trail { case: Case::Verify { .. }, .. } => unreachable!("a case that is judged"),
            Call::Clearing(Question { settings, schedule, record, leader, presence, list }) => {
                let answer = answer.first_chunk_mut().expect("an answer is longer");
                lent::clearing(settings, schedule, record, *leader, *presence, list, answer)
            }
            Call::Force { question: Question { settings, schedule, record, leader, presence, list }, .. } => {
                lent::force(settings, schedule, record, *leader, *presence, list, output, count)
            }
        }
    }
}
