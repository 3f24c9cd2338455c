//! The network's settings.

use crate::field::{Fields, Unreadable, head, join, whole};
use crate::id::Digest;

/// Settings with their tag and length.
pub const SETTINGS: usize = 47;

/// The settings of a network, as document 01 lays them out.
#[derive(Clone, PartialEq, Eq, Debug)]
pub struct Settings {
    /// The round of the genesis point.
    pub genesis_round: u32,
    /// The digest of the genesis point.
    pub genesis_digest: Digest,
    /// The most bytes that a point's payload may have.
    pub payload_batch_bytes: u32,
    /// The greatest seq_no of an anchor proof.
    pub sticky_anchors: u8,
    /// How far in the future a dependency's time may lie.
    pub clock_skew_millis: u16,
    /// How many rounds back a root cause still counts, and how many rounds deep a certificate spreads.
    pub commit_history_rounds: u8,
}

impl Settings {
    /// Document 01's bytes.
    pub fn to_bytes(&self) -> [u8; SETTINGS] {
        let genesis: [u8; 36] = join(self.genesis_round.to_le_bytes(), self.genesis_digest.0);
        let anchors: [u8; 5] = join(self.payload_batch_bytes.to_le_bytes(), [self.sticky_anchors]);
        let limits: [u8; 3] = join(self.clock_skew_millis.to_le_bytes(), [self.commit_history_rounds]);
        let content: [u8; 44] = join(genesis, join::<5, 3, 8>(anchors, limits));
        join(head::<44>(32), content)
    }

    /// The settings at the front of some bytes, and the rest. Whether they are inside their limits is for the calls to
    /// say.
    pub fn read(bytes: &[u8]) -> Result<(Self, &[u8]), Unreadable> {
        let mut fields = Fields::new(bytes);
        let settings = fields.read(32, "settings, tag 32 with 44 bytes", |content| {
            Some(Self {
                genesis_round: content.u32()?,
                genesis_digest: Digest(content.array()?),
                payload_batch_bytes: content.u32()?,
                sticky_anchors: content.u8()?,
                clock_skew_millis: content.u16()?,
                commit_history_rounds: content.u8()?,
            })
        })?;
        Ok((settings, fields.rest()))
    }
}

/// Settings with nothing after them.
impl TryFrom<&[u8]> for Settings {
    type Error = Unreadable;

    fn try_from(bytes: &[u8]) -> Result<Self, Unreadable> {
        whole(bytes, Self::read(bytes)?)
    }
}
