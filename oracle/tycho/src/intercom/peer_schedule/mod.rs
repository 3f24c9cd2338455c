//! The source's peer schedule, filled with the spans of a case.

include!(concat!(env!("OUT_DIR"), "/peer_schedule.rs"));

pub mod epoch_starts;
pub mod stats_ranges;

use std::sync::Arc;

use tycho_crypto::ed25519::{KeyPair, PublicKey};
use tycho_network::PeerId;

use crate::intercom::PeerScheduleStateless;
use crate::models::Round;

/// One to four spans, each with its first round, by the source's own calls of an epoch change.
pub fn with_spans(spans: &[(Round, Vec<(PeerId, u16)>)], last_known: Round) -> PeerScheduleStateless {
    let local = KeyPair { public_key: PublicKey([0; 32]) };
    let mut schedule = PeerScheduleStateless::new(Arc::new(local));
    schedule.epoch_starts.last_known = last_known;
    for (place, (first, peers)) in spans.iter().enumerate() {
        if place > 0 {
            schedule.rotate();
        }
        schedule.set_next_peers(*first, peers);
    }
    schedule
}
