//! The source of randomness: splitmix64 from a seed.

/// The environment variable that gives another seed.
pub const SEED_VARIABLE: &str = "WELLEMBER_SEED";

const DEFAULT_SEED: u64 = 20_240_229;

/// A generator whose whole output follows from its seed.
pub struct Rng(u64);

impl Rng {
    /// A generator with the seed of the environment, or the fixed one, for a test of its own stream number.
    pub fn for_stream(stream: u64) -> Rng {
        let seed = match std::env::var(SEED_VARIABLE) {
            Ok(text) => text.trim().parse().expect("the seed is a 64-bit number"),
            Err(_) => DEFAULT_SEED,
        };
        Rng::new(seed ^ stream.wrapping_mul(0xd6e8_feb8_6659_fd93))
    }

    pub fn new(seed: u64) -> Rng {
        Rng(seed)
    }

    /// The next 64 bits.
    pub fn bits(&mut self) -> u64 {
        self.0 = self.0.wrapping_add(0x9e37_79b9_7f4a_7c15);
        let z = (self.0 ^ self.0 >> 30).wrapping_mul(0xbf58_476d_1ce4_e5b9);
        let z = (z ^ z >> 27).wrapping_mul(0x94d0_49bb_1331_11eb);
        z ^ z >> 31
    }

    /// A number from `least` to `most`, both included.
    pub fn between(&mut self, least: u64, most: u64) -> u64 {
        let range = u128::from(most - least) + 1;
        least + ((u128::from(self.bits()) * range) >> 64) as u64
    }

    /// An index below a length that is not 0.
    pub fn below(&mut self, length: usize) -> usize {
        self.between(0, length as u64 - 1) as usize
    }

    /// True once in so many times.
    pub fn one_in(&mut self, times: u64) -> bool {
        self.between(1, times) == 1
    }

    /// One of some values.
    pub fn pick<T: Copy>(&mut self, values: &[T]) -> T {
        values[self.below(values.len())]
    }

    /// A 128-bit set with about one bit in so many.
    pub fn sparse_set(&mut self, times: u64) -> u128 {
        (0..128).fold(0, |set, i| set | u128::from(self.one_in(times)) << i)
    }

    /// So many random bytes.
    pub fn bytes(&mut self, count: usize) -> Vec<u8> {
        (0..count).map(|_| self.bits() as u8).collect()
    }
}

#[cfg(test)]
mod tests {
    use super::Rng;

    #[test]
    fn splitmix64_gives_its_published_sequence() {
        let mut rng = Rng::new(1_234_567);
        let first = [6_457_827_717_110_365_317, 3_203_168_211_198_807_973];
        assert_eq!([rng.bits(), rng.bits()], first);
    }

    #[test]
    fn between_reaches_both_ends() {
        let mut rng = Rng::new(1);
        let seen: Vec<u64> = (0..100).map(|_| rng.between(3, 5)).collect();
        assert!([3, 4, 5].iter().all(|value| seen.contains(value)));
        assert!(seen.iter().all(|value| (3..=5).contains(value)));
    }
}
