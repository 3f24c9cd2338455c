//! Judging with a trail: the cases of a file, and generated ones, against the reasons that the source's noting copy and the plain
//! judge give.

use std::time::Instant;

use cases::many;
use compare::damage::judge_damaged;
use compare::run::{Counts, Range, run};
use oracle::file::{Case, blobs};
use oracle::numbers::ROWS;
use oracle::row::Row;
use trail::{ROW, TRAIL, certain_rooms, rooms, trail};
use wutherdish::lent::{self, ANSWER};

use crate::book_file::not_whole;
use crate::file::expected;
use crate::lent::{Expected, FILL};
use crate::report::hex_inputs;

/// What the count holds before a call.
const COUNT: u32 = u32::from_ne_bytes([FILL; 4]);
/// Places that a thread takes at a time.
const BLOCK: u64 = 256;
/// One place in so many is a damaged judge case.
const DAMAGED: u64 = 8;
/// One place in so many is also judged with a trail that has room for certain, and with one of a byte less.
const CERTAIN: u64 = 16;
/// Of so many places of a seed what the call left is changed, a byte at a time.
const CHANGED: u64 = 16;

/// What a call leaves, or has to.
#[derive(Clone, PartialEq, Eq)]
struct Left {
    number: u8,
    rows: u32,
    trail: Vec<u8>,
    peers: Vec<u8>,
    answer: [u8; ANSWER],
}

impl Left {
    /// Nothing yet, with a trail of so many bytes.
    fn untouched(case: &Case, room: usize) -> Self {
        let (Case::Verify { peer_buffer, .. } | Case::Judge { peer_buffer, .. }) = case;
        let peers = vec![FILL; *peer_buffer as usize];
        Self { number: 0, rows: COUNT, trail: vec![FILL; room], peers, answer: [FILL; ANSWER] }
    }

    fn by_call(case: &Case, room: usize) -> Self {
        let mut left = Self::untouched(case, room);
        let Case::Judge { settings, schedule, record, leader, presence, list, .. } = case else { return left };
        let Self { number, rows, trail, peers, answer } = &mut left;
        *number = lent::trail(settings, schedule, record, *leader, *presence, list, peers, trail, rows, answer);
        left
    }

    /// Of an answer and its rows, if both fit.
    fn expected(case: &Case, room: usize, given: &Expected, rows: &[Row]) -> Option<Self> {
        let mut left = Self::untouched(case, room);
        left.number = given.number;
        if given.number == 0 {
            let [rows_bytes, unknown] = [rows.as_flattened(), given.unknown.as_flattened()];
            left.trail.get_mut(..rows_bytes.len())?.copy_from_slice(rows_bytes);
            left.peers.get_mut(..unknown.len())?.copy_from_slice(unknown);
            left.rows = rows.len() as u32;
            left.answer = given.answer;
        }
        Some(left)
    }
}

/// Where two part.
fn difference(left: &Left, expected: &Left) -> Option<String> {
    let first = |left: &[u8], expected: &[u8]| left.iter().zip(expected).position(|(left, expected)| left != expected);
    (left != expected).then(|| {
        format!(
            "number {} and {} rows, expected {} and {}; the first other byte of the trail: {:?}, of the answer: {:?}, of the peer \
             buffer: {:?}",
            left.number,
            left.rows,
            expected.number,
            expected.rows,
            first(&left.trail, &expected.trail),
            first(&left.answer, &expected.answer),
            first(&left.peers, &expected.peers)
        )
    })
}

/// What the call leaves, which has to be an answer and its rows.
fn compare(case: &Case, room: usize, given: &Expected, rows: &[Row]) -> Result<Left, String> {
    let expected = Left::expected(case, room, given, rows).ok_or("there is no room for what is expected")?;
    let left = Left::by_call(case, room);
    match difference(&left, &expected) {
        None => Ok(left),
        Some(why) => Err(format!("a trail of {room} bytes: {why}\n{}\n{rows:?}", hex_inputs(case))),
    }
}

/// The library and the rows beside it, against what a file says.
pub fn file(path: &str) -> Result<(), String> {
    let bytes = std::fs::read(path).map_err(|e| format!("{path}: {e}"))?;
    let cases = blobs(&bytes).ok_or_else(|| not_whole(path))?;
    let mut trails = Trails::default();
    for (place, (_, blobs)) in cases.iter().enumerate().filter(|(_, (kind, _))| *kind == TRAIL) {
        let at = |why: String| format!("{path}: case {place}: {why}");
        let (case, room, answer) = of_file(blobs).ok_or_else(|| at("it is laid out otherwise".to_string()))?;
        let trail = trail(&case).map_err(at)?.in_room(room);
        if trail.bytes().as_deref() != Some(answer) {
            return Err(at(format!("the trail beside the library is another: {trail:?}")));
        }
        let (count, rest) = answer.split_at(4);
        let (rows, given) = rest.split_at(ROW * trail.rows.len());
        let given = expected(given).ok_or_else(|| at(format!("{count:?} rows, and no whole answer")))?;
        trails.add(&compare(&case, room, &given, rows.as_chunks().0).map_err(at)?);
    }
    trails.print();
    println!("{path}: {} judged with a trail as the file says", trails.calls());
    Ok(())
}

fn of_file<'a>(blobs: &[&'a [u8]]) -> Option<(Case, usize, &'a [u8])> {
    let &[settings, schedule, record, flags, list, peer_buffer, room, answer] = blobs else { return None };
    let &[leader, presence] = flags else { return None };
    let case = Case::Judge {
        settings: settings.to_vec(),
        schedule: schedule.to_vec(),
        record: record.to_vec(),
        leader,
        presence,
        list: list.to_vec(),
        peer_buffer: u32::from_le_bytes(peer_buffer.try_into().ok()?),
    };
    Some((case, u32::from_le_bytes(room.try_into().ok()?) as usize, answer))
}

/// How often each came.
#[derive(Default)]
struct Trails {
    cases: u64,
    /// Cases without rows, with one, with two to nine, and with more; and all their rows.
    by_rows: [u64; 4],
    rows: u64,
    /// Calls, without those that gave a number; the numbers 1 to 9, and 15.
    given: u64,
    refused: u64,
    short: u64,
    /// Cases in which the Rust panicked and the plain judge alone was asked.
    by_plain: u64,
    /// Bytes and other changes of what was left, each of which has to be seen as a difference.
    noticed: u64,
}

impl Counts for Trails {
    fn merge(&mut self, other: Self) {
        self.cases += other.cases;
        self.by_rows.iter_mut().zip(other.by_rows).for_each(|(sum, count)| *sum += count);
        self.rows += other.rows;
        self.given += other.given;
        self.refused += other.refused;
        self.short += other.short;
        self.by_plain += other.by_plain;
        self.noticed += other.noticed;
    }
}

impl Trails {
    fn add(&mut self, left: &Left) {
        match left.number {
            0 => self.given += 1,
            ROWS => self.short += 1,
            _ => self.refused += 1,
        }
    }

    fn calls(&self) -> u64 {
        self.given + self.refused + self.short
    }

    fn print(&self) {
        println!("{} calls gave a verdict, {} a number from 1 to 9, {} 15", self.given, self.refused, self.short);
    }

    /// The case of a place, with a trail that ends with the rows, one that is longer, and where there are rows one that is a byte
    /// shorter, one that is a row shorter and none.
    fn place(&mut self, seed: u64, place: u64) -> Result<(), String> {
        let case = if place.is_multiple_of(DAMAGED) { judge_damaged(seed, place) } else { many::case(seed, place) };
        let Case::Judge { list, .. } = &case else { unreachable!("all are judge cases") };
        let trail = trail(&case)?;
        let tight = rooms(trail.rows.len());
        let certain = certain_rooms(list).into_iter().filter(|_| place.is_multiple_of(CERTAIN));
        for room in tight.iter().copied().chain(certain) {
            let in_room = trail.clone().in_room(room);
            let given = Expected::new(&in_room.answer).ok_or("a panic is no answer")?;
            let left = compare(&case, room, &given, &in_room.rows)?;
            self.add(&left);
            if place < CHANGED && tight.contains(&room) {
                self.noticed += notice(&left).ok_or("a changed byte is no difference")?;
            }
        }
        self.cases += 1;
        self.by_plain += u64::from(trail.by_plain);
        self.rows += trail.rows.len() as u64;
        self.by_rows[trail.rows.len().min(2) + usize::from(trail.rows.len() > 9)] += 1;
        Ok(())
    }
}

/// Each change of what a call left is a difference; how many there were.
fn notice(left: &Left) -> Option<u64> {
    let mut changed = left.clone();
    let mut changes = 0;
    let parts: [fn(&mut Left) -> &mut [u8]; 3] =
        [|left| &mut left.trail, |left| &mut left.peers, |left| &mut left.answer];
    for part in parts {
        for place in 0..part(&mut changed).len() {
            part(&mut changed)[place] ^= 1;
            difference(&changed, left)?;
            part(&mut changed)[place] ^= 1;
            changes += 1;
        }
    }
    let others = [
        Left { number: left.number ^ 1, ..left.clone() },
        Left { rows: left.rows ^ 1, ..left.clone() },
        Left { trail: [&left.trail[..], &[FILL]].concat(), ..left.clone() },
    ];
    others.iter().all(|other| difference(other, left).is_some()).then_some(changes + others.len() as u64)
}

/// Generated cases.
pub fn generated(range: &Range) -> Result<(), String> {
    let start = Instant::now();
    let counts = run(range, BLOCK, |trails: &mut Trails, place| trails.place(range.seed, place))?;
    let seconds = start.elapsed().as_secs_f64();
    let Range { seed, count, threads } = range;
    let [none, one, few, many] = counts.by_rows;
    counts.print();
    println!(
        "{none} cases without rows, {one} with one, {few} with two to nine, {many} with more; {} rows",
        counts.rows
    );
    println!("{} of these by the plain judge alone, where the Rust panics", counts.by_plain);
    println!("{} changes of what a call left, each a difference", counts.noticed);
    println!("seed {seed}, {count} places: {} cases in {seconds:.1} s, threads {threads}: no difference", counts.cases);
    Ok(())
}
