//! Values that document 01's bytes can't hold.

use std::error::Error;
use std::fmt::{self, Display, Formatter};

use crate::reasons::PointMap;

/// The most peers of a map or a span: their count is a byte.
pub(crate) const MOST_PEERS: usize = u8::MAX as usize;
/// The most spans of a schedule.
pub(crate) const MOST_SPANS: usize = 4;
/// The most entries of a list.
pub(crate) const MOST_ENTRIES: usize = 65_535;

/// Why a value can't be written.
#[derive(Clone, Copy, PartialEq, Eq, Debug)]
pub enum BuildError {
    /// A point's map has more than 255 peers.
    Map {
        /// Which map.
        map: PointMap,
        /// How many peers it has.
        len: usize,
    },
    /// A schedule has no span, or more than four.
    Spans {
        /// How many it has.
        len: usize,
    },
    /// A span has more than 255 peers.
    Span {
        /// The first round of the span.
        first_round: u32,
        /// How many peers it has.
        len: usize,
    },
    /// Two spans of a schedule begin with one round.
    SpanTwice {
        /// That round.
        first_round: u32,
    },
    /// A list has more than 65,535 entries.
    Entries {
        /// How many it has.
        len: usize,
    },
}

impl Display for BuildError {
    fn fmt(&self, f: &mut Formatter<'_>) -> fmt::Result {
        match self {
            Self::Map { map, len } => write!(f, "the point's {map} map has {len} peers, and a map holds at most 255"),
            Self::Spans { len } => write!(f, "the schedule has {len} spans, and it needs one to four"),
            Self::Span { first_round, len } => {
                write!(f, "the span from round {first_round} on has {len} peers, and a span holds at most 255")
            }
            Self::SpanTwice { first_round } => write!(f, "two spans begin with round {first_round}"),
            Self::Entries { len } => write!(f, "the list has {len} entries, and a list holds at most 65,535"),
        }
    }
}

impl Error for BuildError {}
