//! What the network can force: the lists of a file, and generated ones, against judging each entry where its reason decides and, where
//! the list is short, every order of it, by the Rust and by the library.

use std::time::Instant;

use cases::random::Random;
use cases::{case, forcing};
use compare::damage::judge_damaged;
use compare::run::{Counts, Range, run};
use oracle::answer::INVALID;
use oracle::file::blobs;
use oracle::forcing::{FORCE, ROW, Row, SHORT_ROWS, answer_bytes, found, over_orders, rows_bytes};
use oracle::question::Question;
use oracle::{Answer, read};
use trail::certain_rooms;
use wutherdish::lent;

use crate::book_file::not_whole;
use crate::difference::answer;
use crate::lent::{FILL, Lent};
use crate::report::{self, hex};

/// The longest output whose bytes are changed one by one, each change seen as a difference.
const NOTICED: usize = 256;
/// Entries of the longest list of which every order is judged, and of the longest that is looked at.
const ALL_ORDERS: usize = 6;
const LONGEST: usize = 40;
/// Places that a thread takes at a time.
const BLOCK: u64 = 64;
/// Of this many places in turn one has a case that is generated for judging, and one a damaged one; in the others several entries
/// mostly have reasons.
const TURN: u64 = 8;
/// What the count holds before a call.
const COUNT: u32 = u32::from_ne_bytes([FILL; 4]);

/// What a call leaves.
#[derive(Clone, PartialEq, Eq)]
struct Left {
    number: u8,
    count: u32,
    out: Vec<u8>,
}

impl Left {
    fn made(question: &Question, room: usize) -> Self {
        let Question { settings, schedule, record, leader, presence, list } = question;
        let (mut out, mut count) = (vec![FILL; room], COUNT);
        let number = lent::force(settings, schedule, record, *leader, *presence, list, &mut out, &mut count);
        Self { number, count, out }
    }

    /// The rows at the front of the output; with a number all keeps what it held.
    fn of(rows: &Result<Vec<u8>, u8>, room: usize) -> Self {
        let mut left = Self { number: 0, count: COUNT, out: vec![FILL; room] };
        match rows {
            Ok(rows) => {
                left.out[..rows.len()].copy_from_slice(rows);
                left.count = (rows.len() / ROW) as u32;
            }
            Err(number) => left.number = *number,
        }
        left
    }

    fn difference(&self, expected: &Self) -> Option<String> {
        let place = self.out.iter().zip(&expected.out).position(|(left, expected)| left != expected);
        let same = (self.number, self.count, self.out.len()) == (expected.number, expected.count, expected.out.len());
        (!same || place.is_some()).then(|| {
            format!(
                "number {} and count {}, expected {} and {}; the first other byte of the output: {place:?}\n  {}\n  {} by the call",
                self.number,
                self.count,
                expected.number,
                expected.count,
                hex(&expected.out),
                hex(&self.out)
            )
        })
    }
}

/// The lists of a file, against what it says.
pub fn file(path: &str) -> Result<(), String> {
    let bytes = std::fs::read(path).map_err(|e| format!("{path}: {e}"))?;
    let cases = blobs(&bytes).ok_or_else(|| not_whole(path))?;
    let mut forces = Forces::default();
    for (place, (_, blobs)) in cases.iter().enumerate().filter(|(_, (kind, _))| *kind == FORCE) {
        let at = |why: String| format!("{path}: case {place}: {why}");
        let (question, room, answer) = of_file(blobs).ok_or_else(|| at("it is laid out otherwise".to_string()))?;
        let rows = forces.question(&question, |_| room).map_err(at)?;
        if answer_bytes(&rows) != answer {
            return Err(at(format!("judging again finds {rows:?}, the file says {}", hex(answer))));
        }
    }
    forces.print();
    println!("{path}: {} lists answered as the file says", forces.questions());
    Ok(())
}

fn of_file<'a>(blobs: &[&'a [u8]]) -> Option<(Question, usize, &'a [u8])> {
    let (inputs, &[room, answer]) = blobs.split_first_chunk()? else { return None };
    let room = u32::from_le_bytes(room.try_into().ok()?) as usize;
    Some((Question::of_blobs(*inputs)?, room, answer))
}

/// How often each came.
#[derive(Default)]
struct Forces {
    lent: Lent,
    /// Numbers of judging, and 17.
    refused: [u64; 2],
    /// By how many rows there are: none, one, two and so on; the last has all above.
    rows: [u64; 6],
    /// Rows by their list.
    of_list: [u64; 3],
    /// Lists of which every order was judged, their orders, and those that no order or every order makes invalid.
    permuted: u64,
    orders: u64,
    never: u64,
    always: u64,
    /// Changes of what calls left, each of which has to be a difference.
    noticed: u64,
}

impl Counts for Forces {
    fn merge(&mut self, other: Self) {
        let add = |sums: &mut [u64], counts: &[u64]| sums.iter_mut().zip(counts).for_each(|(sum, count)| *sum += count);
        add(&mut self.refused, &other.refused);
        add(&mut self.rows, &other.rows);
        add(&mut self.of_list, &other.of_list);
        self.permuted += other.permuted;
        self.orders += other.orders;
        self.never += other.never;
        self.always += other.always;
        self.noticed += other.noticed;
    }
}

impl Forces {
    fn questions(&self) -> u64 {
        self.refused.iter().chain(&self.rows).sum()
    }

    fn print(&self) {
        println!("{:9} numbers of judging", self.refused[0]);
        println!("{:9} number 17", self.refused[1]);
        for (rows, count) in self.rows.iter().enumerate() {
            println!("{count:9} lists with {rows} rows{}", if rows + 1 == self.rows.len() { " or more" } else { "" });
        }
        let [rule, direct, indirect] = self.of_list;
        println!("rows: {rule} of presence rules, {direct} of direct entries, {indirect} of indirect ones");
        println!(
            "{} lists of up to {ALL_ORDERS} entries in {} orders, by the Rust and by the library: the reasons are the rows'",
            self.permuted, self.orders
        );
        println!("of these no order makes {} invalid, and every order {}", self.never, self.always);
    }

    /// Both judges and the call, lent room as asked of the rows' length.
    fn question(
        &mut self,
        question: &Question,
        room: impl FnOnce(usize) -> usize,
    ) -> Result<Result<Vec<u8>, u8>, String> {
        let by_rust = found(question, |list| answer(&question.judging(list)))?;
        let by_library = found(question, |list| self.lent.answer(&question.judging(list)))?;
        if by_rust != by_library {
            return Err(format!(
                "judging by the Rust finds {by_rust:?}, by the library {by_library:?}\n{}",
                report::question(question)
            ));
        }
        if let Ok(rows) = &by_rust {
            self.permute(question, rows).map_err(|why| format!("{why}\n{rows:?}\n{}", report::question(question)))?;
        }
        let room = room(by_rust.as_ref().map_or(0, Vec::len) * ROW);
        let rows = rows_bytes(&by_rust, room);
        let (left, expected) = (Left::made(question, room), Left::of(&rows, room));
        if let Some(why) = left.difference(&expected) {
            return Err(format!("{why}\n{}", report::question(question)));
        }
        if room <= NOTICED {
            self.noticed += notice(&left).ok_or("a changed byte is no difference")?;
        }
        match (&rows, &by_rust) {
            (Err(SHORT_ROWS), _) => self.refused[1] += 1,
            (Err(_), _) => self.refused[0] += 1,
            (Ok(_), found) => {
                let found = found.as_deref().unwrap_or_default();
                self.rows[found.len().min(5)] += 1;
                found.iter().for_each(|row| self.of_list[usize::from(row.list)] += 1);
            }
        }
        Ok(rows)
    }

    /// Every order of a short list: the reasons that come are as many as the rows, with their numbers and roles.
    fn permute(&mut self, question: &Question, rows: &[Row]) -> Result<(), String> {
        if read::list(&question.list).is_none_or(|entries| entries.len() > ALL_ORDERS) {
            return Ok(());
        }
        let mut invalid = 0;
        let mut count = |answer: Answer| {
            invalid += u64::from(matches!(&answer, Answer::Verdict(verdict) if verdict.kind == INVALID));
            answer
        };
        let (reasons, orders) = over_orders(question, |list| count(answer(&question.judging(list))))?;
        let (others, _) = over_orders(question, |list| self.lent.answer(&question.judging(list)))?;
        if reasons != others {
            return Err(format!(
                "orders give {} reasons by the Rust and {} by the library",
                reasons.len(),
                others.len()
            ));
        }
        let mut given: Vec<(u8, u8)> = reasons.iter().map(|answer| (answer[1], answer[71])).collect();
        let mut listed: Vec<(u8, u8)> = rows.iter().map(|row| (row.reason, row.role)).collect();
        given.sort_unstable();
        listed.sort_unstable();
        if given != listed {
            return Err(format!("orders give the reasons and roles {given:?}"));
        }
        self.permuted += 1;
        self.orders += orders;
        match invalid {
            0 => self.never += 1,
            _ if invalid == orders => self.always += 1,
            _ => return Err(format!("{invalid} of {orders} orders make the point invalid")),
        }
        Ok(())
    }

    fn place(&mut self, seed: u64, place: u64) -> Result<(), String> {
        let case = match place % TURN {
            0 => case(seed, place),
            1 => judge_damaged(seed, place),
            _ => forcing(seed, place),
        };
        let Some(question) = Question::of(case) else { return Ok(()) };
        if read::list(&question.list).is_some_and(|entries| entries.len() > LONGEST) {
            return Ok(());
        }
        let random = &mut Random::new(seed, place);
        self.question(&question, |length| room(random, &question.list, length)).map(|_| ())
    }
}

/// The rows' length, or a longer one, also what is room for certain, or a byte less; in one of four places a shorter one, if there is any.
fn room(random: &mut Random, list: &[u8], length: usize) -> usize {
    if length > 0 && random.chance(1, 4) {
        let any = random.below(length);
        return random.pick(&[length - 1, length - ROW, 0, any]);
    }
    let [less, certain] = certain_rooms(list);
    random.pick(&[length, length, length + 1, length + 7, length + 8, length + 31, less, certain])
}

/// Each change of what a call left is a difference; how many there were.
fn notice(left: &Left) -> Option<u64> {
    let mut changed = left.clone();
    for at in 0..left.out.len() {
        changed.out[at] ^= 1;
        changed.difference(left)?;
        changed.out[at] = left.out[at];
    }
    let others = [Left { number: left.number + 1, ..left.clone() }, Left { count: left.count ^ 1, ..left.clone() }];
    others.iter().all(|other| other.difference(left).is_some()).then_some((left.out.len() + others.len()) as u64)
}

/// Generated lists.
pub fn generated(range: &Range) -> Result<(), String> {
    let start = Instant::now();
    let counts = run(range, BLOCK, |forces: &mut Forces, place| forces.place(range.seed, place))?;
    counts.print();
    let seconds = start.elapsed().as_secs_f64();
    let Range { seed, count, threads } = range;
    println!("{} changes of what a call left, each a difference", counts.noticed);
    println!(
        "seed {seed}, {count} places: {} lists in {seconds:.1} s, threads {threads}: no difference",
        counts.questions()
    );
    Ok(())
}
