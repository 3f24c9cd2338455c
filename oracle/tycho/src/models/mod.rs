//! cert.rs, dag_point.rs and peer_count.rs are the source's.

include!(concat!(env!("OUT_DIR"), "/models.rs"));

pub mod point;
pub mod point_status;

pub use cert::{Cert, CertDirectDeps, WeakCert};
pub use dag_point::*;
pub use peer_count::PeerCount;
pub use point::*;
