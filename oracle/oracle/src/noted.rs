//! The rows of a trail, of the reasons that the copy of the source notes as it sets them (../tycho/build.rs).

use tycho::dag::InvalidReason;
use tycho::notes::{self, Note};

use crate::Answer;
use crate::answer::{INVALID, NONE};
use crate::row::{DIRECT, NO_LIST, Row, row};
use crate::run::convert;

/// The reason of the presence rules, which no entry gives.
const NO_ROUND_IN_DAG: u8 = 2;

/// What a judgement gives, and the rows of its reasons.
pub fn trail(judge: impl FnOnce() -> Answer) -> (Answer, Vec<Row>) {
    notes::take();
    let answer = judge();
    let notes = notes::take();
    let by_rule =
        matches!(&answer, Answer::Verdict(verdict) if (verdict.kind, verdict.reason) == (INVALID, NO_ROUND_IN_DAG));
    let rows = if by_rule { vec![row(NO_LIST, 0, NO_ROUND_IN_DAG, NONE)] } else { notes.iter().map(row_of).collect() };
    (answer, rows)
}

fn row_of(Note { list, place, reason }: &Note) -> Row {
    let verdict = convert::invalid(reason);
    row(*list, *place, verdict.reason, verdict.role)
}

/// A dropped entry that no DAG gives, where nothing else was noted.
pub fn note_drop(place: Option<usize>) {
    if let Some(place) = place {
        notes::arrived(DIRECT, place);
        notes::noted(InvalidReason::DependencyRoundDropped);
    }
}
