//! The proved code as Rust sees it, and its comparison with the account.

pub mod compare;
pub mod distances;
pub mod listing;
pub mod met;
pub mod panel;
pub mod probe;
pub mod proved;
pub mod readings;
pub mod rounds;
pub mod sheets;
pub mod tally;
pub mod thresholds;
pub mod windows;

pub use met::Met;
pub use tally::Tally;
