//! Where the fields of a walk stand in its words; here they are only for damage at chosen places.

pub const NODES: usize = 0;
pub const LINKS_COUNT: usize = 1;
pub const EVENTS_COUNT: usize = 2;
pub const THRESHOLD: usize = 3;
pub const CAP: usize = 4;
/// Where the stack begins in its words.
pub const AT: usize = 5;
pub const REACHED: usize = 6;
/// Scenarios examined.
pub const COUNT: usize = 7;
pub const MASS: usize = 8;
pub const LINKS: usize = 9;
pub const EVENTS: usize = 265;
pub const STACK: usize = 777;
pub const SUMS: usize = 1289;

/// The words of the plan: the header, the links and the events.
pub fn of_the_plan(at: usize) -> bool {
    at <= CAP || (LINKS..STACK).contains(&at)
}

#[test]
fn a_walk_takes_so_many_words() {
    let words = conformance::panel::walk_words();
    assert_eq!(words, 5 + 4 + 256 + 2 * 512 + 2016);
    assert_eq!(words, SUMS + 2016);
}
