//! The runs at several thresholds: answers worked out by hand, many calls beside the account's, each block beside the run at its
//! threshold, and the exact sums between the bounds of every block.

mod beside_account;
mod beside_runs;
mod by_hand;
mod exact;
