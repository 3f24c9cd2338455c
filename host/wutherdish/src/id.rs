//! Ids: 32 bytes that are compared as byte strings, and a point's id made of them.

use std::fmt::{self, Debug, Display, Formatter};

use crate::field::{Content, join};
use crate::words::Part;

/// A peer's id.
#[derive(Clone, Copy, PartialEq, Eq, PartialOrd, Ord, Hash)]
pub struct PeerId(pub [u8; 32]);

/// A point's digest.
#[derive(Clone, Copy, PartialEq, Eq, PartialOrd, Ord, Hash)]
pub struct Digest(pub [u8; 32]);

/// A point's id.
#[derive(Clone, Copy, PartialEq, Eq, PartialOrd, Ord, Hash, Debug)]
pub struct PointId {
    /// The round that it belongs to.
    pub round: u32,
    /// The digest of the point.
    pub digest: Digest,
    /// The peer that made it.
    pub author: PeerId,
}

impl PointId {
    pub(crate) fn to_bytes(self) -> [u8; 68] {
        join(join::<4, 32, 36>(self.round.to_le_bytes(), self.digest.0), self.author.0)
    }

    /// The id in 68 bytes of a field's content.
    pub(crate) fn read(content: &mut Content<'_>) -> Option<Self> {
        Some(Self { round: content.u32()?, digest: Digest(content.array()?), author: PeerId(content.array()?) })
    }
}

impl From<[u8; 32]> for PeerId {
    fn from(bytes: [u8; 32]) -> Self {
        Self(bytes)
    }
}

impl From<[u8; 32]> for Digest {
    fn from(bytes: [u8; 32]) -> Self {
        Self(bytes)
    }
}

/// The first four bytes; all of them where the alternate form is asked for (`{:#}`).
fn hex(bytes: &[u8; 32], f: &mut Formatter<'_>) -> fmt::Result {
    let (shown, end) = if f.alternate() { (bytes.len(), "") } else { (4, "..") };
    for byte in bytes.iter().take(shown) {
        write!(f, "{byte:02x}")?;
    }
    f.write_str(end)
}

impl Display for PeerId {
    fn fmt(&self, f: &mut Formatter<'_>) -> fmt::Result {
        hex(&self.0, f)
    }
}

impl Display for Digest {
    fn fmt(&self, f: &mut Formatter<'_>) -> fmt::Result {
        hex(&self.0, f)
    }
}

impl Debug for PeerId {
    fn fmt(&self, f: &mut Formatter<'_>) -> fmt::Result {
        write!(f, "PeerId({self:#})")
    }
}

impl Debug for Digest {
    fn fmt(&self, f: &mut Formatter<'_>) -> fmt::Result {
        write!(f, "Digest({self:#})")
    }
}

impl Display for PointId {
    fn fmt(&self, f: &mut Formatter<'_>) -> fmt::Result {
        let whole = f.alternate();
        let (digest, author) = (Part(&self.digest, whole), Part(&self.author, whole));
        write!(f, "point {digest} of round {} by {author}", self.round)
    }
}
