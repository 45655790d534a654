//! Lent lists with one fault each, written down here, and the number that every call on them returns.

use account::Header;

use crate::credits::cable;
use crate::lists::Lists;

/// Each number that the tests of lent lists give, 4 to 10 and 12, by the lists of two nodes, a link and an event on it.
pub fn faulty_lists() -> Vec<(Lists, u32)> {
    let right = Lists::of(&cable());
    let own = right.header;
    let threshold = 0;
    let headers = [
        (Header { nodes: 0, ..own }, 4),
        (Header { threshold, ..own }, 5),
        (Header { cap: 0, ..own }, 6),
        (Header { events: 2, ..own }, 12),
        (Header { links: 2, ..own }, 12),
    ];
    let events = [
        (vec![1_000_000_001, 0, 1, 0], 8),
        (vec![1, 0, 1, 0, 2, 0, 1, 0], 9),
        (vec![62_500, 4, 1, 0], 10),
        (vec![62_500, 0, 2, 0], 10),
    ];
    let mut all = Vec::new();
    for (header, number) in headers {
        let right = right.clone();
        all.push((Lists { header, ..right }, number));
    }
    for (events, number) in events {
        let mut lists = right.clone();
        lists.header.events = events.len() as u64 / 4;
        all.push((Lists { events, ..lists }, number));
    }
    let links = vec![1, 1];
    all.push((Lists { links, ..right }, 7));
    all
}
