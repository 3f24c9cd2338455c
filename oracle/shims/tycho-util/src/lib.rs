//! Stands in for tycho-util: the standard maps under a small hasher of fixed seed, and a few names.

use std::collections::{HashMap, HashSet};
use std::hash::{BuildHasherDefault, Hasher};

pub type FastHashMap<K, V> = HashMap<K, V, BuildHasherDefault<WordHasher>>;
pub type FastHashSet<K> = HashSet<K, BuildHasherDefault<WordHasher>>;

#[derive(Default)]
pub struct WordHasher(u64);

impl WordHasher {
    #[inline]
    fn mix(&mut self, word: u64) {
        self.0 = (self.0.rotate_left(5) ^ word).wrapping_mul(0x9E37_79B9_7F4A_7C15);
    }
}

/// Inlined: a call for each key would take about as long as hashing it, and the bench measures the Rust under this hasher.
impl Hasher for WordHasher {
    #[inline]
    fn finish(&self) -> u64 {
        self.0 ^ (self.0 >> 32)
    }

    #[inline]
    fn write(&mut self, bytes: &[u8]) {
        let (words, rest) = bytes.as_chunks();
        for word in words {
            self.mix(u64::from_le_bytes(*word));
        }
        if !rest.is_empty() {
            let mut word = [0; 8];
            word[..rest.len()].copy_from_slice(rest);
            self.mix(u64::from_le_bytes(word));
        }
    }

    #[inline]
    fn write_usize(&mut self, number: usize) {
        self.mix(number as u64);
    }
}

pub mod metrics {
    pub struct HistogramGuard;

    impl HistogramGuard {
        pub fn begin(_name: &'static str) -> Self {
            Self
        }
    }
}

pub mod serde_helpers {
    use serde::Serializer;

    pub struct Base64BytesWithLimit<const N: usize>;

    impl<const N: usize> Base64BytesWithLimit<N> {
        pub fn serialize<S: Serializer>(bytes: &[u8; N], serializer: S) -> Result<S::Ok, S::Error> {
            serializer.serialize_bytes(bytes)
        }
    }

    pub mod signature {
        use serde::Serializer;

        pub fn serialize<S: Serializer>(bytes: &[u8; 64], serializer: S) -> Result<S::Ok, S::Error> {
            serializer.serialize_bytes(bytes)
        }
    }
}

pub mod time {
    pub struct MonotonicClock;

    impl MonotonicClock {
        pub fn now_millis() -> u64 {
            unreachable!("the oracle asks no clock")
        }
    }
}
