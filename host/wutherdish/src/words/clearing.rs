//! What a point waits for.

use std::fmt::{self, Display, Formatter};

use super::Part;
use crate::clearing::Clearing;

impl Display for Clearing {
    fn fmt(&self, f: &mut Formatter<'_>) -> fmt::Result {
        match self {
            Self::NotWaiting => f.write_str("waits for no certificate"),
            Self::NoSingleMark => f.write_str("no single certificate clears it, unless it spreads to more points"),
            Self::ClearedBy(id) => write!(f, "waits for a certificate of the {}", Part(id, f.alternate())),
        }
    }
}
