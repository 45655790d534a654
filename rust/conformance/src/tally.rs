//! How often each answer was met.

/// The answers of a call: 0, accepted, and each refusal from 1 to 23.
const ANSWERS: usize = 24;

/// A counter for each answer.
#[derive(Default)]
pub struct Tally([u64; ANSWERS]);

impl Tally {
    /// Counts one answer.
    pub fn add(&mut self, number: u32) {
        self.0[number as usize] += 1;
    }

    /// Asserts that exactly these answers were met.
    #[track_caller]
    pub fn expect(&self, numbers: impl IntoIterator<Item = u32>) {
        let expected: Vec<u32> = numbers.into_iter().collect();
        let answers = 0..ANSWERS as u32;
        let met: Vec<u32> = answers.filter(|&n| self.0[n as usize] > 0).collect();
        assert_eq!(met, expected, "answers met: {:?}", self.0);
    }

    /// Asserts that exactly these answers were met, each at least so many times.
    #[track_caller]
    pub fn expect_each(&self, numbers: &[u32], least: u64) {
        self.expect(numbers.iter().copied());
        let often = numbers.iter().all(|&n| self.0[n as usize] >= least);
        assert!(often, "answers met: {:?}", self.0);
    }
}
