//! Document 01's bytes in, the answers of the Rust out.
//!
//! `verify` and `judge` read a case as document 01 says, give its numbers 1 to 9 where they apply, and
//! else run `BasicVerifier::verify` and `Verifier::validate` of the unchanged source on it.

pub mod answer;
pub mod arrangement;
pub mod clearing;
pub mod direct;
pub mod draft;
pub mod feed;
pub mod file;
pub mod forcing;
#[cfg(feature = "noted")]
pub mod noted;
pub mod numbers;
pub mod question;
pub mod read;
pub mod row;
mod run;
pub mod sha256;
pub mod steps;
pub mod value;
pub mod write;

pub use answer::{Answer, Verdict};

/// Lengths of peer buffers from here up are enough.
pub const PEER_BUFFER: u32 = 8_160;

/// What document 01's verifying answers.
pub fn verify(settings: &[u8], schedule: &[u8], record: &[u8], peer_buffer: u32) -> Answer {
    match numbers::before(settings, schedule, record, 0, 0, peer_buffer) {
        Err(number) => Answer::Number(number),
        Ok(read) => run::guarded(|| run::verify(&read)),
    }
}

/// What document 01's judging answers.
pub fn judge(
    settings: &[u8],
    schedule: &[u8],
    record: &[u8],
    leader: u8,
    presence: u8,
    list: &[u8],
    peer_buffer: u32,
) -> Answer {
    match numbers::before(settings, schedule, record, leader, presence, peer_buffer) {
        Err(number) => Answer::Number(number),
        Ok(read) => run::guarded(|| run::judge(&read, leader == 1, presence, list)),
    }
}
