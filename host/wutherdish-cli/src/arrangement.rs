//! How the pairs of includes and witness lie in a point record.

use std::ffi::OsStr;

use wutherdish::{Point, Refusal, Unreadable, columns_to_pairs, pairs_to_columns};

/// An arrangement. Nothing in a record tells which it has.
#[derive(Clone, Copy, PartialEq, Eq, Debug)]
pub enum Arrangement {
    /// All peers, and then all digests: what the calls take.
    Columns,
    /// Each peer with its digest, as before format 2.
    Pairs,
}

/// Reads the record at the front of some bytes, and gives the rest.
pub type Read = for<'a> fn(&'a [u8]) -> Result<(Point, &'a [u8]), Unreadable>;

impl Arrangement {
    /// The arrangement of a name.
    pub fn named(name: &OsStr) -> Option<Self> {
        [Self::Columns, Self::Pairs].into_iter().find(|arrangement| name == arrangement.name())
    }

    /// Its name.
    pub fn name(self) -> &'static str {
        match self {
            Self::Columns => "columns",
            Self::Pairs => "pairs",
        }
    }

    /// The other one.
    pub fn other(self) -> Self {
        match self {
            Self::Columns => Self::Pairs,
            Self::Pairs => Self::Columns,
        }
    }

    /// Reads a record of this arrangement.
    pub fn reader(self) -> Read {
        match self {
            Self::Columns => |bytes| Point::read(bytes),
            Self::Pairs => |bytes| Point::read_pairs(bytes),
        }
    }

    /// The library's call that converts a record of the other arrangement to this one.
    pub fn convert(self, record: &[u8]) -> Result<Vec<u8>, Refusal> {
        match self {
            Self::Columns => pairs_to_columns(record),
            Self::Pairs => columns_to_pairs(record),
        }
    }
}
