//! The point verifier of tycho, compiled from the unchanged source, and beside it shims of the parts of
//! the mempool that it leans on. Every module named in source.sha256 is the source's own file.

pub mod dag;
pub mod effects;
pub mod engine;
pub mod intercom;
pub mod models;
#[cfg(feature = "noted")]
pub mod notes;
pub mod storage;

pub use rand::set_next as set_leader_place;
pub use tycho_network::PeerId;
pub use tycho_util::FastHashMap;
