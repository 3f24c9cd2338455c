//! The oracle's judge, and the plain one where the Rust panics as is known.

use oracle::Answer;
use oracle::file::Case;
use plain::{KNOWN_PANIC, Prepared};

use crate::Offer;

/// Also says whether the plain judge stood in.
pub fn judge(settings: &[u8], offer: &Offer, presence: u8, list: Vec<u8>) -> (Answer, bool) {
    let case = Case::Judge {
        settings: settings.to_vec(),
        schedule: offer.schedule.clone(),
        record: offer.record.clone(),
        leader: offer.leader,
        presence,
        list,
        peer_buffer: offer.peer_buffer,
    };
    match case.answer() {
        Answer::Panic(message) if message.starts_with(KNOWN_PANIC) => (Prepared::new(&case).answer(None), true),
        answer => (answer, false),
    }
}
