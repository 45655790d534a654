//! Lists of thresholds and lists of bounds on each side of their limits, and the order of the tests: 0, 12 and 23.

use account::WHOLE;

use super::Numbered;
use crate::walks::row;

/// The pairs of the row's three nodes.
const PAIRS: usize = 3;

/// A right list.
pub const RIGHT: &[u64] = &[2, 1];

/// Lists with one fault each: none, too many, one outside 1 to 10^18, one that does not fall.
pub const WRONG: [&[u64]; 8] = [
    &[],
    &[17, 16, 15, 14, 13, 12, 11, 10, 9, 8, 7, 6, 5, 4, 3, 2, 1],
    &[0],
    &[5, 4, 3, 2, 1, 0],
    &[WHOLE + 1],
    &[WHOLE + 1, WHOLE, 1],
    &[7, 7],
    &[7, 5, 6],
];

/// All of them.
pub fn numbered() -> Vec<Numbered> {
    let groups = [values(), counts(), places(), rooms(), wrong_and_short()];
    groups.into_iter().flatten().collect()
}

/// A list with this room for bounds.
fn in_room(name: &'static str, thresholds: &[u64], room: [usize; 2], number: u32) -> Numbered {
    Numbered {
        name,
        plan: row(1, 100),
        thresholds: thresholds.to_vec(),
        room,
        number,
    }
}

/// A list with room for all its bounds.
fn with_room(name: &'static str, thresholds: &[u64], number: u32) -> Numbered {
    in_room(name, thresholds, [PAIRS * thresholds.len(); 2], number)
}

/// So many thresholds, down to 2, each two below the one before.
fn falling(count: u64) -> Vec<u64> {
    (1..=count).rev().map(|i| 2 * i).collect()
}

/// Values at both limits and past them, alone and in short lists.
fn values() -> Vec<Numbered> {
    let right: [&[u64]; 9] = [
        &[1],
        &[2],
        &[1 << 32],
        &[WHOLE - 1],
        &[WHOLE],
        &[2, 1],
        &[WHOLE, 1],
        &[WHOLE, WHOLE - 1],
        &[WHOLE, 1 << 32, 1],
    ];
    let wrong: [&[u64]; 18] = [
        &[0, 0],
        &[1, 0],
        &[WHOLE, 0],
        &[1 << 63],
        &[u64::MAX],
        &[u64::MAX, WHOLE],
        &[u64::MAX, 1 << 63],
        &[WHOLE + 2, WHOLE + 1],
        &[1, 1],
        &[WHOLE, WHOLE],
        &[1, 2],
        &[1, WHOLE],
        &[1 << 32, (1 << 32) + 1],
        &[3, 2, 2],
        &[3, 3, 2],
        &[3, 2, 3],
        &[3, 1, 2],
        &[1, u64::MAX, 0],
    ];
    let right = right.map(|list| with_room("values", list, 0));
    let wrong = wrong
        .into_iter()
        .chain(WRONG)
        .map(|list| with_room("values", list, 23));
    right.into_iter().chain(wrong).collect()
}

/// Each count up to 16, and such that are above it.
fn counts() -> Vec<Numbered> {
    let right = (1..=16).map(|count| with_room("a count", &falling(count), 0));
    let wrong = [17, 18, 31, 32, 33, 255, 256, 257, 272, 65_537, 65_552];
    let wrong = wrong.map(|count| with_room("a count", &falling(count), 23));
    right.chain(wrong).collect()
}

/// One wrong value at each place of a list: 0, above 10^18, as the one before or one above it.
fn places() -> Vec<Numbered> {
    let mut all = Vec::new();
    for count in [2, 9, 15, 16] {
        let right = falling(count);
        for at in 0..right.len() {
            let mut values = vec![0, WHOLE + 1, u64::MAX];
            if at > 0 {
                values.extend([right[at - 1], right[at - 1] + 1]);
            }
            for value in values {
                let mut list = right.clone();
                list[at] = value;
                all.push(with_room("a place", &list, 23));
            }
        }
    }
    all
}

/// Room for the bounds of all thresholds, for one entry less, for one block, for none, and for more.
fn rooms() -> Vec<Numbered> {
    let mut all = Vec::new();
    for count in [1, 2, 3, 10, 15, 16] {
        let list = falling(count);
        let whole = PAIRS * list.len();
        for room in [[whole; 2], [whole + 1, whole], [whole, whole + PAIRS]] {
            all.push(in_room("room", &list, room, 0));
        }
        for short in [whole - 1, whole - PAIRS, 0] {
            for room in [[short, whole], [whole, short], [short; 2], [short, 99]] {
                all.push(in_room("room", &list, room, 12));
            }
        }
    }
    all
}

/// Wrong thresholds come first, whatever the room.
fn wrong_and_short() -> Vec<Numbered> {
    let rooms = [[0, 0], [0, 99], [99, 0], [1, 1], [48, 48], [99, 99]];
    let of = |list| rooms.map(|room| in_room("wrong thresholds and room", list, room, 23));
    WRONG.into_iter().flat_map(of).collect()
}
