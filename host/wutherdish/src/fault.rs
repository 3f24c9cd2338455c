//! What a row says, of a trail or of what the network can force: a reason and what sets it, where an answer has the last one alone.

use crate::id::PointId;
use crate::names::InvalidNumber;
use crate::reasons::AnchorStageRole;

/// How many bytes a row has.
pub(crate) const ROW: usize = 8;

/// A reason that judging sets, of those that make a point invalid.
#[derive(Clone, Copy, PartialEq, Eq, Debug)]
pub struct Fault {
    /// What sets it.
    pub set_by: SetBy,
    /// Its number, 2 to 19.
    pub reason: InvalidNumber,
    /// The link's role that it names, if it names one.
    pub role: Option<AnchorStageRole>,
}

/// What sets a reason.
#[derive(Clone, Copy, PartialEq, Eq, Debug)]
pub enum SetBy {
    /// A presence rule, which looks at no entry.
    Presence,
    /// The entry at this place of [`List::direct`](crate::List::direct), from 0.
    Direct(usize),
    /// The entry at this place of [`List::indirect`](crate::List::indirect), from 0.
    Indirect(usize),
}

/// A fault with the id of the entry that sets it, if that has one: its text names the point, where that of a fault alone says "a
/// point".
#[derive(Clone, Copy, PartialEq, Eq, Debug)]
pub struct FaultOf(pub Fault, pub Option<PointId>);

impl Fault {
    /// What a row says; none where the bytes are no row.
    pub fn read(row: &[u8; ROW]) -> Option<Self> {
        let &[list, low, high, reason, role, 0, 0, 0] = row else { return None };
        let set_by = match (list, u16::from_le_bytes([low, high])) {
            (0, 0) => SetBy::Presence,
            (1, place) => SetBy::Direct(place.into()),
            (2, place) => SetBy::Indirect(place.into()),
            _ => return None,
        };
        let role = match (reason, role) {
            (12..=15, 0) => Some(AnchorStageRole::Proof),
            (12..=15, 1) => Some(AnchorStageRole::Trigger),
            (2..=11 | 16..=19, 255) => None,
            _ => return None,
        };
        let is_of_rule = set_by == SetBy::Presence;
        (is_of_rule == (reason == 2)).then_some(Self { set_by, reason: InvalidNumber(reason), role })
    }
}

#[cfg(test)]
mod tests {
    use super::*;
    use AnchorStageRole::{Proof, Trigger};

    fn fault(set_by: SetBy, reason: u8, role: Option<AnchorStageRole>) -> Option<Fault> {
        Some(Fault { set_by, reason: InvalidNumber(reason), role })
    }

    #[test]
    fn rows() {
        assert_eq!(Fault::read(&[0, 0, 0, 2, 255, 0, 0, 0]), fault(SetBy::Presence, 2, None));
        for reason in (3..=11).chain(16..=19) {
            assert_eq!(Fault::read(&[1, 2, 1, reason, 255, 0, 0, 0]), fault(SetBy::Direct(258), reason, None));
            assert_eq!(Fault::read(&[2, 1, 0, reason, 255, 0, 0, 0]), fault(SetBy::Indirect(1), reason, None));
        }
        for reason in 12..=15 {
            for (number, role) in [(0, Proof), (1, Trigger)] {
                let row = [1, 255, 255, reason, number, 0, 0, 0];
                assert_eq!(Fault::read(&row), fault(SetBy::Direct(65_535), reason, Some(role)));
            }
        }
    }

    #[test]
    fn bytes_that_are_no_row() {
        let others = [
            [3, 0, 0, 19, 255, 0, 0, 0],
            [0, 1, 0, 2, 255, 0, 0, 0],
            [0, 0, 0, 19, 255, 0, 0, 0],
            [1, 0, 0, 2, 255, 0, 0, 0],
            [1, 0, 0, 1, 255, 0, 0, 0],
            [1, 0, 0, 20, 255, 0, 0, 0],
            [1, 0, 0, 12, 255, 0, 0, 0],
            [1, 0, 0, 12, 2, 0, 0, 0],
            [1, 0, 0, 17, 0, 0, 0, 0],
            [1, 0, 0, 19, 255, 1, 0, 0],
            [1, 0, 0, 19, 255, 0, 1, 0],
            [1, 0, 0, 19, 255, 0, 0, 1],
        ];
        others.iter().for_each(|row| assert_eq!(Fault::read(row), None, "{row:?}"));
    }
}
