//! The settings that the verifier reads.

use std::num::{NonZeroU8, NonZeroU16, NonZeroU32};

use crate::models::{Digest, Round};

pub struct MempoolConfig {
    pub consensus: ConsensusConfig,
    pub genesis_round: Round,
    pub genesis_digest: Digest,
}

pub struct ConsensusConfig {
    pub payload_batch_bytes: NonZeroU32,
    pub sticky_anchors: u8,
    pub clock_skew_millis: NonZeroU16,
    pub commit_history_rounds: NonZeroU8,
}
