//! How often each case was met.

use std::collections::BTreeMap;

/// A counter for each case, by its name.
#[derive(Default)]
pub struct Met(BTreeMap<&'static str, u32>);

impl Met {
    /// Counts those cases that hold.
    pub fn count(&mut self, cases: &[(&'static str, bool)]) {
        for &(case, holds) in cases {
            *self.0.entry(case).or_default() += u32::from(holds);
        }
    }

    /// Asserts that each case was met at least so many times.
    #[track_caller]
    pub fn expect_each(&self, least: u32) {
        let often = self.0.values().all(|&count| count >= least);
        assert!(often && !self.0.is_empty(), "{:?}", self.0);
    }
}
