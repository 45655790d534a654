//! Each number of the table "Refused" by a small input written down here, and the order of the tests where several fail.
//! What is expected stands here as numbers; the account has no part in it.

use account::credit::Contract;
use account::{Header, Lent};
use conformance::thresholds::run_thresholds;
use conformance::windows::run_at;
use conformance::{probe, readings};

/// A plan of 37 bytes: two nodes, one link, two events.
const PLAN: [u8; 37] = [
    b'R', b'S', b'G', 1, 0, 2, 1, 2, // the mark, the version, the counts
    1, 0, 0, 0, 0, 0, 0, 0, 100, 0, 0, 0, // the threshold, the cap
    0, 1, // the link
    7, 0, 0, 0, 2, 0, 1, 1, 0, // event 0: node 1 and link 0
    3, 0, 0, 0, 0, // event 1: no member
    0, // room for one byte more
];

/// The plan's own bytes, without the room at their end.
const SIZE: usize = 36;

/// The plan with some bytes changed: each place with what is put there.
fn changed(changes: &[(usize, &[u8])]) -> Vec<u8> {
    let mut bytes = PLAN[..SIZE].to_vec();
    for &(at, new) in changes {
        bytes[at..at + new.len()].copy_from_slice(new);
    }
    bytes
}

/// Check and read refuse with this number, and read changes nothing.
#[track_caller]
fn expect_file(bytes: &[u8], number: u32) {
    assert_eq!(probe::check(bytes), number, "check");
    let (mut links, mut events) = ([9; 4], [9; 10]);
    let (refusal, numbers) = probe::read(bytes, &mut links, &mut events);
    assert_eq!(refusal, number, "read");
    if number != 0 {
        assert_eq!((numbers, links, events), ([0; 5], [9; 4], [9; 10]));
    }
}

const T: usize = 8;
const CAP: usize = 16;
const LINK: usize = 20;
const EVENT: usize = 22;
const MEMBER: usize = 27;
const LAST: usize = 31;

#[test]
fn the_plan_is_accepted() {
    expect_file(&changed(&[]), 0);
    let (mut links, mut events) = ([9; 4], [9; 10]);
    let answer = probe::read(&PLAN[..SIZE], &mut links, &mut events);
    assert_eq!(answer, (0, [2, 1, 2, 1, 100]));
    assert_eq!(links, [0, 1, 9, 9]);
    assert_eq!(events, [7, 2, 1, 0, 3, 0, 0, 0, 9, 9]);
}

#[test]
fn refusals_of_files() {
    for length in 0..SIZE {
        expect_file(&PLAN[..length], 1);
    }
    expect_file(&changed(&[(2, b"H")]), 2);
    expect_file(&changed(&[(3, &[0])]), 3);
    expect_file(&changed(&[(4, &[1])]), 3);
    for (at, count) in [(5, 0), (5, 65), (6, 129), (7, 129)] {
        expect_file(&changed(&[(at, &[count])]), 4);
    }
    expect_file(&changed(&[(T, &[0])]), 5);
    let above = 1_000_000_000_000_000_001u64.to_le_bytes();
    expect_file(&changed(&[(T, &above)]), 5);
    expect_file(&changed(&[(CAP, &[0])]), 6);
    expect_file(&changed(&[(CAP, &1_000_001u32.to_le_bytes())]), 6);
    for ends in [[0, 2], [1, 1], [1, 0]] {
        expect_file(&changed(&[(LINK, &ends)]), 7);
    }
    expect_file(&changed(&[(EVENT, &1_000_000_001u32.to_le_bytes())]), 8);
    expect_file(&changed(&[(LAST, &[8])]), 9);
    let members = [
        [2, 0, 1, 0],
        [0, 2, 1, 0],
        [0, 1, 1, 1],
        [1, 0, 0, 1],
        [0, 1, 0, 1],
    ];
    for members in members {
        expect_file(&changed(&[(MEMBER, &members)]), 10);
    }
    expect_file(&PLAN, 11);
}

#[test]
fn the_first_of_several_in_a_file() {
    let faults: [(usize, &[u8]); 5] = [(0, b"X"), (3, &[2]), (5, &[0]), (T, &[0]), (CAP, &[0])];
    for first in 0..faults.len() {
        expect_file(&changed(&faults[first..]), 2 + first as u32);
    }
    // A link and an event: the link first; q above 10^9 and above the event before: 8; a member that is cut off: 1.
    expect_file(&changed(&[(LINK, &[1, 1]), (LAST, &[8])]), 7);
    expect_file(&changed(&[(LAST, &u32::MAX.to_le_bytes())]), 8);
    expect_file(&changed(&[(LAST, &[8]), (LAST + 4, &[1])]), 9);
    expect_file(&changed(&[(LAST + 4, &[1])]), 1);
    let mut bytes = changed(&[(MEMBER, &[5])]);
    bytes.truncate(MEMBER + 1);
    expect_file(&bytes, 1);
    bytes.push(0);
    expect_file(&bytes, 10);
}

#[test]
fn lists_too_short_for_the_reader() {
    for (links, events) in [(1, 8), (2, 7), (0, 0)] {
        let (mut links, mut events) = (vec![9; links], vec![9; events]);
        let (own_links, own_events) = (links.clone(), events.clone());
        let answer = probe::read(&PLAN[..SIZE], &mut links, &mut events);
        assert_eq!(answer, (12, [0; 5]));
        assert_eq!((links, events), (own_links, own_events));
        assert_eq!(probe::read(&PLAN, &mut [], &mut []).0, 11);
    }
}

/// The numbers and lists of the plan.
const HEADER: Header = Header {
    nodes: 2,
    links: 1,
    events: 2,
    threshold: 1,
    cap: 100,
};
const LINKS: [u8; 2] = [0, 1];
const EVENTS: [u64; 8] = [7, 2, 1, 0, 3, 0, 0, 0];

/// A contract whose terms are all past their limits.
const PAST: Contract = Contract {
    fee: 1_000_000_000_001,
    limit: 31_536_001,
    rate: 1_000_000_000_001,
};

/// Windows and a minute: right, a tail, a window that is refused, a minute that is.
const WEEKS: [(&[u64], u64); 4] = [
    (&[0, 10_080, 1, 1, 0], 10_079),
    (&[0, 10_080, 1, 1, 0, 0], 10_080),
    (&[0, 10_081, 1, 1, 0], 10_080),
    (&[], 10_080),
];

/// Thresholds: right, then none, 17 of them, one at 0, one above 10^18, and one that is as the one before.
const LISTS_OF_T: [&[u64]; 6] = [
    &[1_000_000_000_000_000_000, 1],
    &[],
    &[17, 16, 15, 14, 13, 12, 11, 10, 9, 8, 7, 6, 5, 4, 3, 2, 1],
    &[1, 0],
    &[1_000_000_000_000_000_001, 1],
    &[1, 1],
];

/// Write, run and pair refuse with this number and change nothing; so does a credit, whatever its pair and terms, a run with
/// windows, whatever these and its minute, and, but for 5, the runs at several thresholds, whatever these are.
#[track_caller]
fn expect_lists(header: Header, links: &[u8], events: &[u64], number: u32) {
    let lent = Lent {
        header,
        links,
        events,
    };
    let mut out = [9; 40];
    assert_eq!(probe::write(&lent, &mut out), (number, 0), "write");
    assert_eq!(out, [9; 40]);
    let (mut lower, mut upper) = ([9; 3], [9; 3]);
    let run = probe::run(&lent, &mut lower, &mut upper);
    assert_eq!((run, lower, upper), ((number, [0; 3]), [9; 3], [9; 3]));
    assert_eq!(probe::pair(&lent, 0, 1), (number, [0; 2]), "pair");
    for (v, w) in [(0, 1), (1, 1)] {
        let credit = readings::credit(&lent, v, w, &PAST);
        assert_eq!(credit, (number, [0; 3]), "credit for {v} {w}");
    }
    for (windows, minute) in WEEKS {
        let run = run_at(&lent, windows, minute, &mut lower, &mut upper);
        assert_eq!((run, lower, upper), ((number, [0; 3]), [9; 3], [9; 3]));
    }
    for list in LISTS_OF_T.into_iter().filter(|_| number != 5) {
        let runs = run_thresholds(&lent, list, &mut lower, &mut upper);
        assert_eq!((runs, lower, upper), ((number, [0; 48]), [9; 3], [9; 3]));
    }
}

/// The events with one word changed.
fn with_word(at: usize, word: u64) -> [u64; 8] {
    let mut events = EVENTS;
    events[at] = word;
    events
}

#[test]
fn refusals_of_lists() {
    let numbers = |nodes, links, events| Header {
        nodes,
        links,
        events,
        ..HEADER
    };
    for header in [
        numbers(0, 1, 2),
        numbers(65, 1, 2),
        numbers(2, 129, 2),
        numbers(2, 1, 129),
    ] {
        expect_lists(header, &LINKS, &EVENTS, 4);
    }
    for (threshold, cap, number) in [(0, 0, 5), (u64::MAX, 1, 5), (1, 0, 6), (1, 1 << 32, 6)] {
        let header = Header {
            threshold,
            cap,
            ..HEADER
        };
        expect_lists(header, &LINKS, &EVENTS, number);
    }
    expect_lists(HEADER, &LINKS[..1], &EVENTS, 12);
    expect_lists(HEADER, &LINKS, &EVENTS[..7], 12);
    expect_lists(HEADER, &[1, 1], &EVENTS[..7], 12);
    expect_lists(HEADER, &[1, 1], &with_word(0, u64::MAX), 7);
    expect_lists(HEADER, &LINKS, &with_word(4, 1_000_000_001), 8);
    expect_lists(HEADER, &LINKS, &with_word(4, 8), 9);
    for (at, set) in [(1, 4), (2, 2), (3, 1), (5, 1 << 63)] {
        expect_lists(HEADER, &LINKS, &with_word(at, set), 10);
    }
}

/// The plan's lists, as they are lent.
fn right() -> Lent<'static> {
    Lent {
        header: HEADER,
        links: &LINKS,
        events: &EVENTS,
    }
}

#[test]
fn outputs_too_short_and_pairs_that_are_none() {
    let mut short = [9; SIZE - 1];
    assert_eq!(probe::write(&right(), &mut short), (12, 0));
    assert_eq!(short, [9; SIZE - 1]);
    let mut out = [9; SIZE];
    assert_eq!(probe::write(&right(), &mut out), (0, SIZE as u64));
    assert_eq!(out, PLAN[..SIZE]);
    assert_eq!(probe::run(&right(), &mut [], &mut [9; 1]), (12, [0; 3]));
    assert_eq!(probe::run(&right(), &mut [9; 1], &mut []), (12, [0; 3]));
    for (v, w) in [(0, 0), (1, 0), (0, 2), (0, u64::MAX), (u64::MAX, 0)] {
        assert_eq!(probe::pair(&right(), v, w), (13, [0; 2]));
    }
}

#[test]
fn refusals_of_readings() {
    use conformance::readings::{credit, downtime, figure, topologies, witness};

    assert_eq!(figure(&right(), 1, 1), (13, [0; 3]));
    assert_eq!(witness(&right(), 1, 1), (13, [0; 2]));
    let still = Lent {
        header: Header {
            events: 0,
            ..HEADER
        },
        ..right()
    };
    assert_eq!(witness(&still, 0, 1), (14, [0; 2]));
    assert_eq!(topologies(&right(), &mut [9; 3]), (15, 0));
    assert_eq!(downtime(0, 1_000_000_000_000_000_001), (16, [0; 2]));
    assert_eq!(downtime(1_000_000_000_000_000_001, 0), (16, [0; 2]));
    assert_eq!(downtime(u64::MAX, 0), (16, [0; 2]));
    assert_eq!(credit(&right(), 1, 1, &PAST), (13, [0; 3]));
    assert_eq!(credit(&right(), 0, 1, &PAST), (20, [0; 3]));
}

/// The plan has two nodes and a link: node 2 and link 1 are none of it.
#[test]
fn refusals_of_windows() {
    let answer = |windows: &[u64], minute| {
        let (mut lower, mut upper) = ([9; 2], [9; 2]);
        let (number, _) = run_at(&right(), windows, minute, &mut lower, &mut upper);
        assert!(number == 0 || (lower, upper) == ([9; 2], [9; 2]));
        number
    };
    assert_eq!(
        WEEKS.map(|(list, minute)| answer(list, minute)),
        [0, 12, 21, 22]
    );
    for window in [
        [0, 0, 0, 0, 0],
        [9, 8, 0, 0, 0],
        [0, 10_081, 0, 0, 0],
        [0, u64::MAX, 0, 0, 0],
        [0, 1, 4, 0, 0],
        [0, 1, 0, 2, 0],
        [0, 1, 0, 0, 1],
    ] {
        assert_eq!(answer(&window, 5), 21, "{window:?}");
    }
    for (lower, upper) in [(0, 1), (1, 0)] {
        for (windows, minute) in WEEKS {
            let (mut lower, mut upper) = (vec![9; lower], vec![9; upper]);
            let short = run_at(&right(), windows, minute, &mut lower, &mut upper);
            assert_eq!(short, (12, [0; 3]), "{windows:?}");
        }
    }
}

/// The plan has one pair, so two thresholds need two entries. A t of 0 beside them is not taken.
#[test]
fn refusals_of_thresholds() {
    let zero = Header {
        threshold: 0,
        ..HEADER
    };
    for header in [HEADER, zero] {
        let lent = Lent { header, ..right() };
        for (lower, upper, number) in [(2, 2, 0), (1, 2, 12), (2, 1, 12), (0, 0, 12)] {
            let numbers = LISTS_OF_T.map(|list| {
                let (mut lower, mut upper) = (vec![9; lower], vec![9; upper]);
                run_thresholds(&lent, list, &mut lower, &mut upper).0
            });
            assert_eq!(numbers, [number, 23, 23, 23, 23, 23]);
        }
    }
}
