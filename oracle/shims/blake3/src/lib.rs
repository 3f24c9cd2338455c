//! Stands in for blake3. Hashing is no part of document 01, so nothing may come to call it.

pub struct Hash;

impl From<Hash> for [u8; 32] {
    fn from(_: Hash) -> Self {
        unreachable!("the oracle hashes nothing")
    }
}

pub fn hash(_bytes: &[u8]) -> Hash {
    unreachable!("the oracle hashes nothing")
}
