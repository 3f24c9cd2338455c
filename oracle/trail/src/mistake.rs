//! What a maker of trails might get wrong, as changes of the right rows: the cases have to notice each.

use oracle::answer::{NONE, TRIGGER};
use oracle::file::Case;
use oracle::read;
use oracle::row::{DIRECT, INDIRECT, Row, row};
use oracle::value::{Entry, State};

plain::mistakes! {
    /// the rows stand from the last to the first
    LastFirst,
    /// each entry has a row for its last reason alone
    LastOfEach,
    /// the verdict's reason alone has a row
    LastOfAll,
    /// a place counts the entries that gave a reason
    PlaceOfReason,
    /// the place of an indirect entry counts the direct ones too
    PlaceInAll,
    /// a drop after a reason has a row
    DropAfterReason,
    /// a row of 17 names a role
    RoleOfMismatch,
}

impl Mistake {
    /// The rows of a case with this mistake.
    pub fn rows(self, case: &Case, rows: &[Row]) -> Vec<Row> {
        let entry = |row: &Row| (row[0], row[1], row[2]);
        match self {
            Self::LastFirst => rows.iter().rev().copied().collect(),
            Self::LastOfEach => {
                let by_entry = rows.chunk_by(|row, next| entry(row) == entry(next));
                by_entry.filter_map(<[Row]>::last).copied().collect()
            }
            Self::LastOfAll => rows.last().copied().into_iter().collect(),
            Self::PlaceOfReason => {
                let by_entry = rows.chunk_by(|row, next| entry(row) == entry(next)).enumerate();
                by_entry.flat_map(|(place, rows)| rows.iter().map(move |row| placed(row, place))).collect()
            }
            Self::PlaceInAll => {
                let direct = entries(case).iter().filter(|entry| entry.indirect.is_none()).count();
                let place = |row: &Row| usize::from(u16::from_le_bytes([row[1], row[2]]));
                let moved = |row: &Row| if row[0] == INDIRECT { placed(row, place(row) + direct) } else { *row };
                rows.iter().map(moved).collect()
            }
            Self::DropAfterReason => rows.iter().copied().chain(drop_after(case, rows)).collect(),
            Self::RoleOfMismatch => {
                let named =
                    |row: &Row| if row[3] == 17 { [&row[..4], &[TRIGGER], &row[5..]].concat() } else { row.to_vec() };
                rows.iter().map(named).map(|row| row.try_into().expect("a byte was changed")).collect()
            }
        }
    }
}

fn placed(&[list, _, _, reason, role, ..]: &Row, place: usize) -> Row {
    row(list, place, reason, role)
}

fn entries(case: &Case) -> Vec<Entry> {
    match case {
        Case::Judge { list, .. } => read::list(list).unwrap_or_default(),
        Case::Verify { .. } => Vec::new(),
    }
}

/// The row of a drop that ends the direct list after a reason.
fn drop_after(case: &Case, rows: &[Row]) -> Option<Row> {
    let &[list, .., reason, _, _, _, _] = rows.last()?;
    let place = entries(case).iter().position(|entry| entry.indirect.is_none() && entry.state == State::Dropped)?;
    (list == DIRECT && reason != 3).then(|| row(DIRECT, place, 3, NONE))
}
