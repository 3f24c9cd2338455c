//! Stands in for rand_pcg: see the shim of rand.

pub struct Pcg32;

impl rand::SeedableRng for Pcg32 {
    fn seed_from_u64(_seed: u64) -> Self {
        Self
    }
}

impl rand::Rng for Pcg32 {}
