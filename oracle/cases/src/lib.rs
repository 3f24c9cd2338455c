//! Cases by seed: points that are mostly well formed, with single faults.

pub mod bytes;
pub mod chain;
pub mod drafts;
pub mod edges;
pub mod fault;
pub mod histogram;
pub mod many;
pub mod random;
pub mod scene;

use oracle::file::Case;
use random::Random;

/// The case of this seed at this place. Cases don't depend on one another.
pub fn case(seed: u64, place: u64) -> Case {
    let mut random = Random::new(seed, place);
    fault::case(&mut random)
}

/// Likewise, of a point that mostly waits for certificates.
pub fn waiting(seed: u64, place: u64) -> Case {
    fault::waiting::waiting(&mut Random::new(seed, place))
}

/// Likewise, of a point for which several entries mostly have reasons.
pub fn forcing(seed: u64, place: u64) -> Case {
    fault::forcing::forcing(&mut Random::new(seed, place))
}
