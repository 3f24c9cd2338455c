use std::collections::BTreeMap;

use crate::dag::dag_point_future::DagPointFuture;
use crate::models::Digest;

/// The versions of one author's point at one round.
#[derive(Default)]
pub struct DagLocation {
    pub versions: BTreeMap<Digest, DagPointFuture>,
}
