//! The contract of the instrument in plain Rust, written from documents 01 and 02 alone.
//!
//! It shares no method with the proved code: products in 128 bits, a recursive walk that keeps every
//! examined scenario, components by union-find, and exact sums in a wide integer of its own. The rounds of a reach are
//! laid down by document 02; it takes each of them over the list of links, without sets of neighbours.

pub mod bounds;
pub mod calls;
pub mod credit;
pub mod exact;
pub mod file;
pub mod listing;
pub mod panel;
pub mod plan;
pub mod readings;
pub mod refusal;
pub mod rounds;
pub mod sheet;
mod source;
pub mod thresholds;
pub mod topology;
pub mod walk;
pub mod wide;
pub mod windows;

pub use plan::{Event, Header, Lent, Plan};
pub use refusal::{number, Refusal};

/// One whole: 10^18 units of mass.
pub const WHOLE: u64 = 1_000_000_000_000_000_000;

/// A probability of one: 10^9 units of 10^-9.
pub const CERTAIN: u64 = 1_000_000_000;

/// The most ends that a plan may ask for.
pub const LARGEST_CAP: u64 = 1_000_000;

/// The most nodes, links and events of a plan.
pub const MOST_NODES: u64 = 64;
pub const MOST_LINKS: u64 = 128;
pub const MOST_EVENTS: u64 = 128;

/// The 64-bit words of one event in a lent list: probability, nodes, links 0 to 63, links 64 to 127.
pub const EVENT_WORDS: usize = 4;
