//! Which certificate would clear a point: the questions of a file, and generated ones, against judging again with each point of the
//! list marked, by the Rust and by the library.

use std::time::Instant;

use cases::{case, waiting};
use compare::damage::judge_damaged;
use compare::run::{Counts, Range, run};
use oracle::clearing::{BYTES, CLEARING, Clearing, answer_bytes, found};
use oracle::file::blobs;
use oracle::numbers::{is_version, split};
use oracle::question::Question;
use oracle::read;
use oracle::value::{Entry, Id, Point, State};
use wutherdish::lent;

use crate::book_file::not_whole;
use crate::difference::answer;
use crate::lent::{FILL, Lent};
use crate::report::{self, hex};

/// Places that a thread takes at a time.
const BLOCK: u64 = 256;
/// Of this many places in turn one has a case that is generated for judging, and one a damaged one; the others have points that
/// mostly wait.
const TURN: u64 = 8;

/// What a call leaves.
#[derive(Clone, PartialEq, Eq)]
struct Left {
    number: u8,
    answer: [u8; BYTES],
}

impl Left {
    fn made(question: &Question) -> Self {
        let Question { settings, schedule, record, leader, presence, list } = question;
        let mut answer = [FILL; BYTES];
        let number = lent::clearing(settings, schedule, record, *leader, *presence, list, &mut answer);
        Self { number, answer }
    }

    /// With a number the answer keeps what it held.
    fn of(found: &Result<Clearing, u8>) -> Self {
        match found {
            Ok(clearing) => Self { number: 0, answer: clearing.bytes() },
            Err(number) => Self { number: *number, answer: [FILL; BYTES] },
        }
    }

    /// The first byte that is not as expected, the number's being 0.
    fn difference(&self, expected: &Self) -> Option<usize> {
        let bytes = |left: &Self| [&[left.number], &left.answer[..]].concat();
        bytes(self).iter().zip(&bytes(expected)).position(|(left, expected)| left != expected)
    }
}

/// What the call leaves, which has to be this.
fn compare(question: &Question, name: &str, found: &Result<Clearing, u8>) -> Result<Left, String> {
    let (left, expected) = (Left::made(question), Left::of(found));
    match left.difference(&expected) {
        None => Ok(left),
        Some(at) => {
            let left = format!("number {}, answer {}", left.number, hex(&left.answer));
            Err(format!("byte {at} differs; {name}: {found:?}\n  {left} by the call\n{}", report::question(question)))
        }
    }
}

/// The questions of a file, against what it says.
pub fn file(path: &str) -> Result<(), String> {
    let bytes = std::fs::read(path).map_err(|e| format!("{path}: {e}"))?;
    let cases = blobs(&bytes).ok_or_else(|| not_whole(path))?;
    let mut clears = Clears::default();
    for (place, (_, blobs)) in cases.iter().enumerate().filter(|(_, (kind, _))| *kind == CLEARING) {
        let at = |why: String| format!("{path}: case {place}: {why}");
        let otherwise = || at("it is laid out otherwise".to_string());
        let (inputs, [answer]) = blobs.split_first_chunk().ok_or_else(otherwise)? else { return Err(otherwise()) };
        let question = Question::of_blobs(*inputs).ok_or_else(otherwise)?;
        let found = clears.question(&question).map_err(at)?;
        if answer_bytes(&found) != *answer {
            return Err(at(format!("judging again finds {found:?}, the file says {}", hex(answer))));
        }
    }
    clears.print();
    println!("{path}: {} questions answered as the file says", clears.questions());
    Ok(())
}

/// How often each came.
#[derive(Default)]
struct Clears {
    lent: Lent,
    refused: u64,
    not_waiting: u64,
    no_single_mark: u64,
    cleared: u64,
    judged: u64,
    /// Of the trans-invalid points, those with each of these in their list.
    seen: [u64; SIGHTS.len()],
    /// Changed bytes of what calls left, each of which has to be a difference.
    noticed: u64,
}

impl Counts for Clears {
    fn merge(&mut self, other: Self) {
        let counts = |clears: Self| {
            let Self { refused, not_waiting, no_single_mark, cleared, judged, noticed, .. } = clears;
            [refused, not_waiting, no_single_mark, cleared, judged, noticed]
        };
        self.seen.iter_mut().zip(other.seen).for_each(|(sum, count)| *sum += count);
        let Self { refused, not_waiting, no_single_mark, cleared, judged, noticed, .. } = self;
        let sums = [refused, not_waiting, no_single_mark, cleared, judged, noticed];
        sums.into_iter().zip(counts(other)).for_each(|(sum, count)| *sum += count);
    }
}

impl Clears {
    fn questions(&self) -> u64 {
        self.refused + self.not_waiting + self.no_single_mark + self.cleared
    }

    fn print(&self) {
        println!("{:9} numbers", self.refused);
        println!("{:9} not waiting", self.not_waiting);
        println!("{:9} waiting, and no single mark clears the point", self.no_single_mark);
        println!("{:9} cleared by one mark", self.cleared);
        println!("of those that wait, lists with");
        for ((name, _), count) in SIGHTS.iter().zip(self.seen) {
            println!("{count:9} {name}");
        }
        println!("{} judgements by the Rust, and as many by the library, which gave the same answers", self.judged);
    }

    /// Both judges, each over the marks, and the call. A number 5 is none of the call's.
    fn question(&mut self, question: &Question) -> Result<Result<Clearing, u8>, String> {
        let judged = &mut self.judged;
        let by_rust = found(question, |list| {
            *judged += 1;
            answer(&question.judging(list))
        })?;
        let lent = &mut self.lent;
        let by_library = found(question, |list| lent.answer(&question.judging(list)))?;
        if by_rust != by_library {
            return Err(format!(
                "judging by the Rust finds {by_rust:?}, by the library {by_library:?}\n{}",
                report::question(question)
            ));
        }
        let left = compare(question, "judging again", &by_rust)?;
        self.noticed += notice(&left).ok_or("a changed byte is no difference")?;
        match by_rust {
            Err(_) => self.refused += 1,
            Ok(Clearing::NotWaiting) => self.not_waiting += 1,
            Ok(Clearing::NoSingleMark) => self.no_single_mark += 1,
            Ok(Clearing::ClearedBy(_)) => self.cleared += 1,
        }
        if matches!(by_rust, Ok(Clearing::NoSingleMark | Clearing::ClearedBy(_))) {
            self.see(question)?;
        }
        Ok(by_rust)
    }

    fn see(&mut self, question: &Question) -> Result<(), String> {
        let list = List::read(question).ok_or("a list that was judged is unreadable")?;
        self.seen.iter_mut().zip(SIGHTS).for_each(|(count, (_, is_there))| *count += u64::from(is_there(&list)));
        Ok(())
    }
}

/// Each changed byte of what a call left is a difference; how many there were.
fn notice(left: &Left) -> Option<u64> {
    let mut changed = left.clone();
    for at in 0..BYTES {
        changed.answer[at] ^= 1;
        changed.difference(left)?;
        changed.answer[at] = left.answer[at];
    }
    let other = Left { number: left.number + 1, ..changed };
    other.difference(left).map(|_| BYTES as u64 + 1)
}

/// A list, with what tells its recording entries apart.
struct List {
    point: Point,
    entries: Vec<Entry>,
    history: u32,
}

/// What may stand in a list, in words and as a test.
type Sight = (&'static str, fn(&List) -> bool);

/// What may stand in a list of a point that waits.
const SIGHTS: [Sight; 8] = [
    ("a point that stands directly and as a target", |list| list.twice(|_| true)),
    ("a witness that is a target, both recording", |list| list.twice(|entry| list.records(entry))),
    ("two targets that are one point, both recording", List::has_one_target),
    ("two recording entries or more, all of one point", |list| list.recording().count() > 1 && list.points() == 1),
    ("recording entries of two points or more", |list| list.points() > 1),
    ("an entry whose root cause lies outside the window", |list| {
        list.entries.iter().any(|entry| list.is_soiled(entry) && !entry.certified && !list.records(entry))
    }),
    ("a soiled entry that is marked already", |list| {
        list.entries.iter().any(|entry| list.is_soiled(entry) && entry.certified)
    }),
    ("the recording point marked in one place and not in another", |list| {
        let marked = |id: &Id| list.entries.iter().any(|entry| entry.certified && entry.state.id() == Some(id));
        list.recording().any(|id| marked(&id))
    }),
];

impl List {
    fn read(question: &Question) -> Option<Self> {
        let history = u32::from(read::settings(&question.settings)?.commit_history_rounds);
        let (point, entries) = (read::record(&question.record)?, read::list(&question.list)?);
        Some(Self { point, entries, history })
    }

    /// Invalid or trans-invalid, and no version of the author's.
    fn is_soiled(&self, entry: &Entry) -> bool {
        let is_other = |id| entry.indirect.is_some() || !is_version(&self.point, id);
        matches!(entry.state, State::Invalid(..) | State::TransInvalid(..)) && entry.state.id().is_some_and(is_other)
    }

    fn records(&self, entry: &Entry) -> bool {
        let reaches = match &entry.state {
            State::TransInvalid(_, root, _) => self.point.id.round - 1 < root.round.saturating_add(self.history),
            _ => true,
        };
        self.is_soiled(entry) && !entry.certified && reaches
    }

    /// The ids of the recording entries.
    fn recording(&self) -> impl Iterator<Item = Id> {
        self.entries.iter().filter(|entry| self.records(entry)).filter_map(|entry| entry.state.id().copied())
    }

    /// How many points they are of.
    fn points(&self) -> usize {
        let mut ids: Vec<Id> = self.recording().collect();
        ids.sort_unstable_by_key(|id| (id.round, id.digest, id.author));
        ids.dedup();
        ids.len()
    }

    /// Whether a point has a direct entry and an indirect one, both so.
    fn twice(&self, is_so: impl Fn(&Entry) -> bool) -> bool {
        let (direct, indirect) = split(&self.entries);
        let id = |entry: &Entry| entry.state.id().copied().filter(|_| is_so(entry));
        indirect.iter().filter_map(id).any(|target| direct.iter().filter_map(id).any(|other| other == target))
    }

    fn has_one_target(&self) -> bool {
        let (_, indirect) = split(&self.entries);
        let [one, other] = indirect else { return false };
        self.records(one) && self.records(other) && one.state.id() == other.state.id()
    }
}

impl Clears {
    fn place(&mut self, seed: u64, place: u64) -> Result<(), String> {
        let case = match place % TURN {
            0 => case(seed, place),
            1 => judge_damaged(seed, place),
            _ => waiting(seed, place),
        };
        match Question::of(case) {
            Some(question) => self.question(&question).map(|_| ()),
            None => Ok(()),
        }
    }
}

/// Generated questions.
pub fn generated(range: &Range) -> Result<(), String> {
    let start = Instant::now();
    let counts = run(range, BLOCK, |clears: &mut Clears, place| clears.place(range.seed, place))?;
    counts.print();
    let seconds = start.elapsed().as_secs_f64();
    let Range { seed, count, threads } = range;
    println!("{} changed bytes of what a call left, each a difference", counts.noticed);
    println!(
        "seed {seed}, {count} places: {} questions in {seconds:.1} s, threads {threads}: no difference",
        counts.questions()
    );
    Ok(())
}
