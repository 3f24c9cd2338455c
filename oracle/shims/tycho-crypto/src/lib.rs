//! Stands in for tycho-crypto. Signatures are no part of document 01, so nothing may come to call them.

pub mod ed25519 {
    #[derive(Clone, Copy)]
    pub struct PublicKey(pub [u8; 32]);

    impl PublicKey {
        pub fn verify_raw(&self, _bytes: &[u8], _signature: &[u8; 64]) -> bool {
            unreachable!("the oracle checks no signature")
        }
    }

    pub struct KeyPair {
        pub public_key: PublicKey,
    }

    impl KeyPair {
        pub fn sign_raw(&self, _bytes: &[u8]) -> [u8; 64] {
            unreachable!("the oracle signs nothing")
        }
    }
}
