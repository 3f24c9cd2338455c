//! No file of the source at hand defines `EpochStarts`; document 01's rule decides: a round belongs to the last span
//! starting at or before it; before the first span and past the last known round it has none.

use crate::models::Round;

#[derive(Clone)]
pub struct EpochStarts {
    /// oldest, prev, curr
    starts: [Option<Round>; 3],
    pub(super) next: Option<Round>,
    pub(super) last_known: Round,
}

impl Default for EpochStarts {
    fn default() -> Self {
        Self { starts: [None; 3], next: None, last_known: Round::BOTTOM }
    }
}

impl EpochStarts {
    pub fn arr_idx(&self, round: Round) -> Option<usize> {
        if round > self.last_known {
            return None;
        }
        let [oldest, prev, curr] = self.starts;
        [oldest, prev, curr, self.next].iter().rposition(|start| start.is_some_and(|start| start <= round))
    }

    pub fn oldest(&self) -> Round {
        self.starts[0].unwrap_or(Round::BOTTOM)
    }

    pub fn prev(&self) -> Round {
        self.starts[1].unwrap_or(Round::BOTTOM)
    }

    pub fn curr(&self) -> Round {
        self.starts[2].unwrap_or(Round::BOTTOM)
    }

    pub fn rotate(&mut self) {
        self.starts.rotate_left(1);
        self.starts[2] = self.next.take();
    }
}
