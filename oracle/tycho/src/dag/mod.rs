//! verifier.rs and wave.rs are the source's; the DAG's rounds and futures are shims.

include!(concat!(env!("OUT_DIR"), "/dag.rs"));

pub mod dag_location;
pub mod dag_point_future;
mod dag_round;

pub use dag_round::{DagRound, IndirectSlot, RequireRegularPoints, RoundParts, WeakDagRound};
pub use verifier::*;
pub use wave::{WAVE_ROUNDS, Wave};
