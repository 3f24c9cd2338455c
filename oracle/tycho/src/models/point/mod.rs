//! data.rs, info.rs, link.rs and parts.rs are the source's.

include!(concat!(env!("OUT_DIR"), "/point.rs"));

pub mod proto_utils;

pub use data::*;
pub use info::*;
pub use link::*;
pub use parts::*;

#[derive(Debug, Copy, Clone, thiserror::Error)]
#[error("Evidence map contains bad signature")]
pub struct EvidenceSigError;

pub struct PointKey {
    pub round: Round,
    pub digest: Digest,
}

impl PointKey {
    pub fn new(round: Round, digest: Digest) -> Self {
        Self { round, digest }
    }
}

impl PointInfo {
    /// Signatures are not checked, so a point comes without one.
    pub fn unsigned(id: PointId, payload_len: u32, payload_bytes: u32, data: PointData) -> Self {
        Self::new(id, Signature::ZERO, payload_len, payload_bytes, data)
    }
}

impl Signature {
    pub fn none() -> Self {
        Self::ZERO
    }
}

/// The numbers that the real derives give; they stand in TL bytes only.
impl PointId {
    pub const TL_ID: u32 = 0;
}

impl IndirectLink {
    pub const TL_ID: u32 = 0;
}

impl Through {
    pub const TL_ID_INCLUDES: u32 = 0;
    pub const TL_ID_WITNESS: u32 = 0;
}
