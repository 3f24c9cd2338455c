//! What judging with a trail has to leave (document 02, U2). The verdict is that of the unchanged source. The source keeps the last
//! reason alone, so that the rows come of a copy of it in which each reason is noted as it is set, and the plain judge, which is
//! written from the papers, gives them too: all of these have to agree.

pub mod mistake;

use oracle::Answer;
use oracle::file::{Case, answer_bytes};
use oracle::numbers::ROWS;
use oracle::row::Row;
use plain::{KNOWN_PANIC, Prepared};

/// The kind of the cases in a file.
pub const TRAIL: u8 = 18;
/// Bytes of a row.
pub const ROW: usize = size_of::<Row>();

/// Lengths of trails to try for so many rows: room for them and no more, for one and a part more, a byte too little, a row too
/// little, and none.
pub fn rooms(rows: usize) -> Vec<usize> {
    let exact = ROW * rows;
    let mut rooms = vec![exact, exact + ROW + 5];
    if exact > 0 {
        rooms.extend([exact - 1, exact - ROW, 0]);
    }
    rooms.dedup();
    rooms
}

/// A byte less than is room for all rows over a list for certain, and just that.
pub fn certain_rooms(list: &[u8]) -> [usize; 2] {
    [list.len() + ROW - 1, list.len() + ROW]
}

/// An answer and the rows beside it.
#[derive(Clone, PartialEq, Eq, Debug)]
pub struct Trail {
    pub answer: Answer,
    pub rows: Vec<Row>,
    /// Where the Rust panicked, as is known, and the plain judge alone was asked.
    pub by_plain: bool,
}

/// Of a judge case: an error where one of the three gives something else.
pub fn trail(case: &Case) -> Result<Trail, String> {
    let (plain, rows) = Prepared::new(case).trail(None);
    let answer = case.answer();
    if matches!(&answer, Answer::Panic(message) if message.starts_with(KNOWN_PANIC)) {
        return Ok(Trail { answer: plain, rows, by_plain: true });
    }
    let (noting, noted) = noted(case);
    if noting != answer_bytes(&answer) {
        return Err(format!(
            "the copy of the source that notes its reasons gives another answer than the source: {answer}"
        ));
    }
    if plain != answer {
        return Err(format!("the source gives {answer}, the plain judge {plain}"));
    }
    if rows != noted {
        return Err(format!("of the source's copy {noted:?}, of the plain judge {rows:?}"));
    }
    Ok(Trail { answer, rows, by_plain: false })
}

/// What the copy answers, and what it noted.
fn noted(case: &Case) -> (Option<Vec<u8>>, Vec<Row>) {
    let (answer, rows) = oracle_noted::noted::trail(|| match case {
        Case::Verify { settings, schedule, record, peer_buffer } => {
            oracle_noted::verify(settings, schedule, record, *peer_buffer)
        }
        Case::Judge { settings, schedule, record, leader, presence, list, peer_buffer } => {
            oracle_noted::judge(settings, schedule, record, *leader, *presence, list, *peer_buffer)
        }
    });
    (oracle_noted::file::answer_bytes(&answer), rows)
}

impl Trail {
    /// With a trail of so many bytes: number 15 comes after judging.
    pub fn in_room(self, length: usize) -> Self {
        let fits = matches!(self.answer, Answer::Number(_)) || ROW * self.rows.len() <= length;
        if fits { self } else { Self { answer: Answer::Number(ROWS), rows: Vec::new(), ..self } }
    }

    /// As a file holds it: the count, the rows and the answer. A panic is none.
    pub fn bytes(&self) -> Option<Vec<u8>> {
        let count = (self.rows.len() as u32).to_le_bytes();
        Some([&count[..], self.rows.as_flattened(), &answer_bytes(&self.answer)?].concat())
    }
}
