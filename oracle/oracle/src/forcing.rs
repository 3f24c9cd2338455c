//! What the network can force (document 02, U11): found by judging the list again with each entry where its final reason decides,
//! and by judging every order of a short one.

use std::collections::BTreeSet;

use crate::answer::{INVALID, NONE, TRANS_INVALID, VALID};
use crate::numbers::split;
use crate::question::Question;
use crate::value::{Entry, State};
use crate::{Answer, read, row, write};

/// The kind of its cases in a file.
pub const FORCE: u8 = 19;
/// The number of a lent list that is too short for the rows.
pub const SHORT_ROWS: u8 = 17;
/// Bytes of a row.
pub const ROW: usize = size_of::<row::Row>();
/// `NoRoundInDag`: the presence rules' reason.
const NO_ROUND: u8 = 2;
/// `DependencyRoundDropped`.
const DROPPED: u8 = 3;

/// A reason that some order gives.
#[derive(Clone, Copy, PartialEq, Eq, Debug)]
pub struct Row {
    /// 0 none, 1 direct, 2 indirect.
    pub list: u8,
    pub place: u16,
    pub reason: u8,
    /// 0 proof, 1 trigger, 255 none.
    pub role: u8,
}

impl Row {
    pub fn bytes(&self) -> row::Row {
        row::row(self.list, usize::from(self.place), self.reason, self.role)
    }
}

/// For an output of this length: the rows' bytes, else the number.
pub fn rows_bytes(found: &Result<Vec<Row>, u8>, output: usize) -> Result<Vec<u8>, u8> {
    let rows: Vec<row::Row> = found.as_ref().map_err(|number| *number)?.iter().map(Row::bytes).collect();
    let bytes = rows.into_flattened();
    if bytes.len() <= output { Ok(bytes) } else { Err(SHORT_ROWS) }
}

/// The answer as a file holds it: number, count and rows; with a number a count of 0 and none.
pub fn answer_bytes(rows: &Result<Vec<u8>, u8>) -> Vec<u8> {
    match rows {
        Ok(rows) => [&[0][..], &((rows.len() / ROW) as u32).to_le_bytes(), rows].concat(),
        Err(number) => vec![*number, 0, 0, 0, 0],
    }
}

/// An answer, whole: two reasons are equal if these are.
type Bytes = [u8; 114];

/// A verdict's bytes, or a number. A panic is an error.
fn told(answer: Answer) -> Result<Result<Bytes, u8>, String> {
    match answer {
        Answer::Verdict(verdict) => Ok(Ok(verdict.bytes())),
        Answer::Number(number) => Ok(Err(number)),
        Answer::Panic(message) => Err(message),
    }
}

/// The rows, each found by judging once; or the number. The outer error is a panic.
pub fn found(question: &Question, judge: impl FnMut(Vec<u8>) -> Answer) -> Result<Result<Vec<Row>, u8>, String> {
    let mut asked = Asked { judge };
    let first = match told((asked.judge)(question.list.clone()))? {
        Ok(answer) => answer,
        Err(number) => return Ok(Err(number)),
    };
    if first[..2] == [INVALID, NO_ROUND] {
        return Ok(Ok(vec![Row { list: 0, place: 0, reason: NO_ROUND, role: NONE }]));
    }
    if !matches!(first[0], VALID | TRANS_INVALID | INVALID) || question.is_genesis() {
        return Ok(Ok(Vec::new()));
    }
    let entries = read::list(&question.list).ok_or("a list that was judged is unreadable")?;
    let (direct, indirect) = split(&entries);
    let mut finals = asked.direct(direct)?;
    if finals.is_empty() {
        finals = asked.indirect(direct, indirect)?;
    }
    // the earliest of equal ones comes first
    let mut rows: Vec<(Row, Bytes)> = Vec::new();
    for one in finals {
        if rows.iter().all(|other| other.1 != one.1) {
            rows.push(one);
        }
    }
    let mut rows: Vec<Row> = rows.into_iter().map(|(row, _)| row).collect();
    rows.sort_by_key(|row| (row.reason, row.place));
    Ok(Ok(rows))
}

struct Asked<J> {
    judge: J,
}

impl<J: FnMut(Vec<u8>) -> Answer> Asked<J> {
    /// The verdict over these entries, where it is invalid by one.
    fn invalid(&mut self, entries: &[Entry]) -> Result<Option<Bytes>, String> {
        let answer = told((self.judge)(write::list(entries)))?;
        let answer = answer.map_err(|number| format!("another order gives the number {number}"))?;
        Ok((answer[0] == INVALID).then_some(answer))
    }

    /// Final reasons of the direct entries, judged without the indirect ones, which can name the same point. Where one is
    /// dropped, the entry comes first and the dropped one after it; else it comes last. Its own reason is the one that names it.
    fn direct(&mut self, direct: &[Entry]) -> Result<Vec<(Row, Bytes)>, String> {
        let dropped = direct.iter().position(|entry| entry.state == State::Dropped);
        let mut finals = Vec::new();
        for place in 0..direct.len() {
            let mut others = direct.to_vec();
            let entry = vec![others.remove(place)];
            let ordered = match dropped {
                Some(at) if at != place => {
                    let drop = vec![others.remove(if at < place { at } else { at - 1 })];
                    [&entry[..], &drop, &others].concat()
                }
                Some(_) => [&entry[..], &others].concat(),
                None => [&others[..], &entry].concat(),
            };
            let answer = self.invalid(&ordered)?;
            let is_own = |answer: &Bytes| match entry[0].state.id() {
                Some(id) => answer[2..70] == write::id(id),
                None => answer[1] == DROPPED,
            };
            finals.extend(answer.filter(is_own).map(|answer| (row(1, place, &answer), answer)));
        }
        Ok(finals)
    }

    /// Final reasons of the indirect entries: the others are dropped, which adds nothing.
    fn indirect(&mut self, direct: &[Entry], indirect: &[Entry]) -> Result<Vec<(Row, Bytes)>, String> {
        let mut finals = Vec::new();
        for place in 0..indirect.len() {
            let mut alone = indirect.to_vec();
            for (at, other) in alone.iter_mut().enumerate() {
                if at != place {
                    other.state = State::Dropped;
                }
            }
            let answer = self.invalid(&[direct, &alone].concat())?;
            finals.extend(answer.map(|answer| (row(2, place, &answer), answer)));
        }
        Ok(finals)
    }
}

fn row(list: u8, place: usize, answer: &Bytes) -> Row {
    Row { list, place: place as u16, reason: answer[1], role: answer[71] }
}

/// The reasons that the orders of a list give, as whole answers, and how many orders there are. The outer error is a panic, or an
/// order with a number.
pub fn over_orders(
    question: &Question,
    mut judge: impl FnMut(Vec<u8>) -> Answer,
) -> Result<(BTreeSet<Bytes>, u64), String> {
    let entries = read::list(&question.list).ok_or("the list is unreadable")?;
    let (direct, indirect) = split(&entries);
    let after = orders(indirect);
    let (mut reasons, mut count) = (BTreeSet::new(), 0);
    for front in orders(direct) {
        for back in &after {
            let ordered = [&front[..], back].concat().concat();
            let answer = told(judge(ordered))?.map_err(|number| format!("an order gives the number {number}"))?;
            count += 1;
            if answer[0] == INVALID {
                reasons.insert(answer);
            }
        }
    }
    Ok((reasons, count))
}

/// Every order of entries, as their bytes.
fn orders(entries: &[Entry]) -> Vec<Vec<Vec<u8>>> {
    let pieces: Vec<Vec<u8>> = entries.iter().map(|entry| write::list(std::slice::from_ref(entry))).collect();
    let mut all = vec![Vec::new()];
    for piece in pieces {
        let with = |order: Vec<Vec<u8>>| {
            let piece = piece.clone();
            (0..=order.len()).map(move |at| [&order[..at], std::slice::from_ref(&piece), &order[at..]].concat())
        };
        all = all.into_iter().flat_map(with).collect();
    }
    all
}
