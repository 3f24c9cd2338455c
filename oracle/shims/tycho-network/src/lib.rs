//! Stands in for tycho-network: a peer's id is its 32 bytes.

use serde::{Serialize, Serializer};
use tycho_crypto::ed25519::PublicKey;

#[derive(Clone, Copy, Debug, PartialEq, Eq, PartialOrd, Ord, Hash)]
pub struct PeerId(pub [u8; 32]);

impl PeerId {
    pub const MAX_TL_BYTES: usize = 36;
    pub const TL_ID: u32 = 0;

    pub fn as_bytes(&self) -> &[u8; 32] {
        &self.0
    }

    pub fn as_public_key(&self) -> Option<PublicKey> {
        unreachable!("the oracle checks no signature")
    }
}

impl PartialEq<&PeerId> for PeerId {
    fn eq(&self, other: &&PeerId) -> bool {
        self == *other
    }
}

impl From<PublicKey> for PeerId {
    fn from(key: PublicKey) -> Self {
        Self(key.0)
    }
}

impl Serialize for PeerId {
    fn serialize<S: Serializer>(&self, serializer: S) -> Result<S::Ok, S::Error> {
        serializer.serialize_bytes(&self.0)
    }
}
