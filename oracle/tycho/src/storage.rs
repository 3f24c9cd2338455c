//! No store: nothing is loaded or kept.

#[derive(Clone)]
pub struct MempoolStore;
