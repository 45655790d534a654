//! Windows and minutes on each side of their limits, and the order of the tests: 0, 12, 21 and 22.

use super::{link_0, parallel, Numbered, Words, MOST};

/// Lists of windows and minutes for a plan with a link: a right list at a right minute; then a list with a tail, one with a
/// window that is refused and an empty one, each at a minute that is refused. The numbers are 0, 12, 21 and 22.
pub const IN_TURN: [(&[u64], u64); 4] = [
    (&[0, 10_080, 0, 1, 0], 0),
    (&[0, 10_080, 0, 1], 10_080),
    (&[0, 0, 0, 1, 0], 10_080),
    (&[], 10_080),
];

/// All of them.
pub fn numbered() -> Vec<Numbered> {
    let groups = [ranges(), counts(), minutes_past(), tails(), orders()];
    groups.into_iter().flatten().collect()
}

/// Two nodes and a link, at a minute.
fn numbered_on(name: &'static str, windows: &[Words], minute: u64, number: u32) -> Numbered {
    Numbered {
        name,
        plan: parallel(2, 1),
        windows: windows.concat(),
        minute,
        number,
    }
}

/// Starts and ends that are in range, and such that are not.
fn ranges() -> Vec<Numbered> {
    let right = [
        (0, 1),
        (0, 10_080),
        (10_079, 10_080),
        (10_078, 10_079),
        (600, 660),
    ];
    let wrong = [
        (0, 0),
        (600, 600),
        (601, 600),
        (10_080, 0),
        (0, 10_081),
        (10_079, 10_081),
        (10_080, 10_080),
        (10_080, 10_081),
        (0, (1 << 32) + 60),
        (1 << 32, (1 << 32) + 60),
        (0, 1 << 63),
        (1 << 63, 600),
        (0, MOST),
        (MOST, 0),
        (MOST, MOST),
        (MOST - 1, MOST),
    ];
    let of = |(start, end), number| {
        [0, 600, 10_079].map(|at| numbered_on("a range", &[link_0(start, end)], at, number))
    };
    let right = right.into_iter().flat_map(|range| of(range, 0));
    let wrong = wrong.into_iter().flat_map(|range| of(range, 21));
    right.chain(wrong).collect()
}

/// Counts of nodes and links, and the words of nodes and links of a window.
type Elements = (usize, usize, [u64; 3]);

/// Elements of which the last is below its count. Of 64 nodes and 128 links none can be past.
const BELOW: [Elements; 12] = [
    (1, 0, [1, 0, 0]),
    (2, 0, [0b11, 0, 0]),
    (2, 1, [0b10, 1, 0]),
    (63, 1, [1 << 62, 0, 0]),
    (64, 1, [1 << 63, 0, 0]),
    (64, 128, [MOST, MOST, MOST]),
    (2, 63, [0, 1 << 62, 0]),
    (2, 64, [0, 1 << 63, 0]),
    (2, 65, [0, MOST, 1]),
    (2, 127, [0, 0, 1 << 62]),
    (2, 127, [0, MOST, MOST >> 1]),
    (2, 128, [0, 0, 1 << 63]),
];

/// Elements of which one is at its count or past it.
const PAST: [Elements; 18] = [
    (1, 0, [0b10, 0, 0]),
    (1, 0, [0, 1, 0]),
    (1, 0, [0, 0, 1]),
    (2, 1, [0b100, 0, 0]),
    (2, 1, [0b111, 0, 0]),
    (2, 1, [1 << 63, 0, 0]),
    (2, 1, [MOST, 0, 0]),
    (2, 1, [0, 0b10, 0]),
    (2, 1, [0, 1 << 63, 0]),
    (2, 1, [0, 0, 1]),
    (2, 1, [0, 0, 1 << 63]),
    (63, 1, [1 << 63, 0, 0]),
    (2, 63, [0, 1 << 63, 0]),
    (2, 64, [0, 0, 1]),
    (2, 65, [0, 0, 0b10]),
    (2, 127, [0, 0, 1 << 63]),
    (63, 128, [MOST, MOST, MOST]),
    (64, 127, [MOST, MOST, MOST]),
];

/// Both of them in a window that does not hold the minute; it is tested all the same.
fn counts() -> Vec<Numbered> {
    let of = |(nodes, links, [first, second, third]): Elements, number| Numbered {
        plan: parallel(nodes, links),
        ..numbered_on("elements", &[[600, 660, first, second, third]], 0, number)
    };
    let below = BELOW.into_iter().map(|elements| of(elements, 0));
    let past = PAST.into_iter().map(|elements| of(elements, 21));
    below.chain(past).collect()
}

/// Minutes of the week, and such that are none, without a window and with one.
fn minutes_past() -> Vec<Numbered> {
    let minutes = [
        (0, 0),
        (10_079, 0),
        (10_080, 22),
        (10_081, 22),
        ((1 << 16) + 60, 22),
        (1 << 32, 22),
        (1 << 63, 22),
        (MOST, 22),
    ];
    let lists: [&[Words]; 3] = [&[], &[link_0(0, 10_080)], &[link_0(0, 1), link_0(5, 9)]];
    let at =
        |windows| minutes.map(|(minute, number)| numbered_on("a minute", windows, minute, number));
    lists.into_iter().flat_map(at).collect()
}

/// One to four words after no window, one or two; right ones or wrong ones, at a right minute or a wrong one.
fn tails() -> Vec<Numbered> {
    let (right, wrong) = (link_0(0, 10_080), link_0(600, 600));
    let lists: [&[Words]; 4] = [&[], &[right], &[right, right], &[wrong]];
    let mut all = Vec::new();
    for windows in lists {
        for tail in [right, wrong, [MOST; 5]] {
            for length in 1..=4 {
                for minute in [0, 10_080] {
                    let mut numbered = numbered_on("a tail", windows, minute, 12);
                    numbered.windows.extend(&tail[..length]);
                    all.push(numbered);
                }
            }
        }
    }
    all
}

/// Each window is tested, wherever it stands, and all of them before the minute.
fn orders() -> Vec<Numbered> {
    let right = link_0(0, 10_080);
    let mut all = Vec::new();
    for wrong in [link_0(600, 600), link_0(0, 10_081), [0, 9, 0b100, 0, 0]] {
        let mut long = vec![right; 1_000];
        long.push(wrong);
        let lists: [&[Words]; 6] = [
            &[wrong],
            &[wrong, right],
            &[right, wrong],
            &[right, right, wrong, right],
            &[wrong, wrong],
            &long,
        ];
        for windows in lists {
            let at = |minute| numbered_on("an order", windows, minute, 21);
            all.extend([0, 10_079, 10_080, MOST].map(at));
        }
    }
    all
}
