//! A tuned Rust program that does the same as the run, as the benchmark's measure.
//!
//! It takes lists that meet every rule and tests nothing. The walk keeps its pending branches on a stack in an array
//! and reaches every end one by one; products are split over 64 bits; nothing is allocated.
//!
//! Tried and slower by 5 to 70 in 100 on a plan: an array of components before the rows; shifts in place of the table
//! of bits; links by node; two arrays of neighbours joined at the end; failing events on the stack, their elements
//! gathered at the end. Tried and no better over the three plans: the stack as separate arrays; "works" as what is
//! left of the mass; working links found by trailing zeros; a dropped branch tested before it is copied.

mod pairs;
mod walk;

pub use walk::run;

/// Numbers and lists as the run takes them: two bytes for each link, four words for each event.
#[derive(Clone, Copy)]
pub struct Lists<'a> {
    pub nodes: usize,
    pub links: &'a [u8],
    pub events: &'a [u64],
    pub threshold: u64,
    pub cap: u64,
}

/// What the run answers beside its lists.
#[derive(Clone, Copy, Debug, PartialEq, Eq)]
pub struct Outcome {
    pub count: u64,
    pub complete: u64,
    pub mass: u64,
}

/// One whole, and a probability of one.
const WHOLE: u64 = 1_000_000_000_000_000_000;
const CERTAIN: u64 = 1_000_000_000;
