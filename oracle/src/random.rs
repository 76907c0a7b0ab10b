//! A small random generator (splitmix64) whose numbers are the same at every run.

use std::env;

/// The seed where RASUVELK_SEED does not name another.
const SEED: u64 = 0x7261_7375_7665_6c6b;

/// The state of the generator.
pub struct Random(u64);

impl Random {
    /// A generator for one test; `name` keeps the tests' numbers apart.
    pub fn new(name: &str) -> Random {
        let seed = match env::var("RASUVELK_SEED") {
            Ok(text) => text.parse().expect("RASUVELK_SEED is a number"),
            Err(_) => SEED,
        };
        Random::from_seed(seed, name)
    }

    /// A generator that no variable changes.
    pub fn fixed(name: &str) -> Random {
        Random::from_seed(SEED, name)
    }

    fn from_seed(seed: u64, name: &str) -> Random {
        let mut random = Random(seed);
        for byte in name.bytes() {
            random.0 = random.bits() ^ u64::from(byte);
        }
        random
    }

    /// The next 64 bits.
    pub fn bits(&mut self) -> u64 {
        self.0 = self.0.wrapping_add(0x9e37_79b9_7f4a_7c15);
        let mut z = self.0;
        z = (z ^ (z >> 30)).wrapping_mul(0xbf58_476d_1ce4_e5b9);
        z = (z ^ (z >> 27)).wrapping_mul(0x94d0_49bb_1331_11eb);
        z ^ (z >> 31)
    }

    /// The next 32 bits.
    pub fn word(&mut self) -> u32 {
        (self.bits() >> 32) as u32
    }

    /// A number below `end`, which is not 0.
    pub fn below(&mut self, end: usize) -> usize {
        (self.bits() % end as u64) as usize
    }

    /// True once in `times`.
    pub fn once_in(&mut self, times: usize) -> bool {
        self.below(times) == 0
    }

    /// One of these.
    pub fn pick<T: Copy>(&mut self, from: &[T]) -> T {
        from[self.below(from.len())]
    }

    /// Random bytes.
    pub fn fill(&mut self, bytes: &mut [u8]) {
        for part in bytes.chunks_mut(8) {
            let eight = self.bits().to_le_bytes();
            part.copy_from_slice(&eight[..part.len()]);
        }
    }
}
