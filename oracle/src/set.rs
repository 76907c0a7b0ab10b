//! The set that the opening of the Rust keeps its pointees in.

use std::collections::HashSet;
use std::hash::{BuildHasherDefault, Hasher};

/// A hash set with the FNV-1a hash, as the crate `fnv` has it.
pub type FnvHashSet<T> = HashSet<T, BuildHasherDefault<FnvHasher>>;

const BASIS: u64 = 0xcbf2_9ce4_8422_2325;
const PRIME: u64 = 0x0000_0100_0000_01b3;

/// FNV-1a over 64 bits.
pub struct FnvHasher(u64);

impl Default for FnvHasher {
    #[inline]
    fn default() -> FnvHasher {
        FnvHasher(BASIS)
    }
}

impl Hasher for FnvHasher {
    #[inline]
    fn write(&mut self, bytes: &[u8]) {
        for &byte in bytes {
            self.0 = (self.0 ^ u64::from(byte)).wrapping_mul(PRIME);
        }
    }

    #[inline]
    fn finish(&self) -> u64 {
        self.0
    }
}
