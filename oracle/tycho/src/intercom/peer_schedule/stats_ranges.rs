use std::sync::Arc;

use tycho_network::PeerId;
use tycho_util::FastHashMap;

use crate::intercom::peer_schedule::epoch_starts::EpochStarts;

pub struct StatsRanges {
    pub stats_slot_maps: [Arc<FastHashMap<PeerId, usize>>; 4],
    pub epoch_starts: EpochStarts,
}
