//! Plans, equipment sheets, networks, contracts, windows and lists of thresholds for the tests and the benchmark: random ones,
//! valid and damaged, some that are written down by hand, and the example files.

pub mod contracts;
pub mod credits;
pub mod damage;
pub mod examples;
pub mod falling;
pub mod faults;
pub mod lists;
pub mod networks;
pub mod reach;
pub mod rng;
pub mod sheet_bytes;
pub mod sheet_damage;
pub mod sheets;
pub mod thresholds;
pub mod valid;
pub mod walks;
pub mod weeks;
pub mod windows;

pub use lists::Lists;
pub use rng::Rng;
