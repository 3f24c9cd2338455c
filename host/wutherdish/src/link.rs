//! Anchor links, under the names of the source's link.rs.

use crate::field::Content;
use crate::id::{PeerId, PointId};
use crate::reasons::PointMap;

/// The map that a link goes through, and the peer in it.
#[derive(Clone, Copy, PartialEq, Eq, Debug)]
pub enum Through {
    /// A point of the round before.
    Includes(PeerId),
    /// A point of the round before that one.
    Witness(PeerId),
}

/// A link to a point that lies further back, through a dependency.
#[derive(Clone, Copy, PartialEq, Eq, Debug)]
pub struct IndirectLink {
    /// The point that it leads to.
    pub to: PointId,
    /// The dependency that it goes through.
    pub through: Through,
}

/// Where a point's anchor proof or anchor trigger is found.
#[derive(Clone, Copy, PartialEq, Eq, Debug)]
pub enum AnchorLink {
    /// The dependency itself.
    Direct(Through),
    /// A point further back.
    Indirect(IndirectLink),
}

impl Through {
    /// The map, 0 for includes and 1 for witness, and the peer, in a field's content.
    pub(crate) fn read(content: &mut Content<'_>) -> Option<Self> {
        let is_witness = content.flag()?;
        let peer = PeerId(content.array()?);
        Some(if is_witness { Self::Witness(peer) } else { Self::Includes(peer) })
    }

    /// The map, includes or witness.
    pub fn map(self) -> PointMap {
        match self {
            Self::Includes(_) => PointMap::Includes,
            Self::Witness(_) => PointMap::Witness,
        }
    }

    /// The peer.
    pub fn peer(self) -> PeerId {
        match self {
            Self::Includes(peer) | Self::Witness(peer) => peer,
        }
    }
}

impl AnchorLink {
    /// The dependency that it goes through.
    pub fn through(self) -> Through {
        match self {
            Self::Direct(through) => through,
            Self::Indirect(link) => link.through,
        }
    }
}
