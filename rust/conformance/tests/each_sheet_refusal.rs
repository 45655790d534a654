//! Each refusal of an equipment sheet by small sheets written down here, on both sides of each limit, and the order of
//! the tests where several fail. What is expected stands here as numbers; the account has no part in it.

use conformance::sheets;
use plans::sheet_bytes::{header, line};

/// A sheet of two nodes and one link.
fn sheet(lines: &[Vec<u8>]) -> Vec<u8> {
    [header(2, 1, lines.len() as u8), lines.concat()].concat()
}

/// Check and both readers refuse with this number, and the readers change nothing but their counts, which are 0.
#[track_caller]
fn expect_refused(bytes: &[u8], number: u32) {
    assert_eq!(sheets::check(bytes), number, "check");
    for reader in [sheets::read, sheets::read_records] {
        let (mut events, mut counts) = ([9; 600], [9; 4]);
        assert_eq!(reader(bytes, &mut events, &mut counts), number);
        assert_eq!((events, counts), ([9; 600], [0, 0, 0, 9]));
    }
}

/// Check accepts, and both readers give these counts and exactly these words.
#[track_caller]
fn expect_read(bytes: &[u8], counts: [u64; 3], words: &[u64]) {
    assert_eq!(sheets::check(bytes), 0, "check");
    for reader in [sheets::read, sheets::read_records] {
        let (mut events, mut numbers) = (vec![9; words.len() + 5], [9; 4]);
        assert_eq!(reader(bytes, &mut events, &mut numbers), 0);
        assert_eq!(numbers, [counts[0], counts[1], counts[2], 9]);
        assert_eq!(events, [words, &[9; 5]].concat());
    }
}

/// The sheet of one line on node 1 gives an event of this probability.
#[track_caller]
fn expect_probability(numbers: [u32; 3], probability: u64) {
    let words = [probability, 2, 0, 0];
    expect_read(&sheet(&[line(numbers, &[0, 1])]), [2, 1, 1], &words);
}

const MOST: u32 = u32::MAX;

#[test]
fn headers() {
    for length in 0..8 {
        expect_refused(&header(2, 1, 0)[..length], 1);
    }
    expect_refused(b"RSG\x01\0\x02\x01\0", 2);
    expect_refused(b"EQR\x01\0\x02\x01\0", 2);
    expect_refused(b"EQS\x02\0\x02\x01\0", 3);
    expect_refused(b"EQS\x01\x01\x02\x01\0", 3);
    for (nodes, links) in [(0, 1), (65, 1), (255, 1), (2, 129), (2, 255)] {
        expect_refused(&header(nodes, links, 0), 4);
    }
    for (nodes, links) in [(1, 0), (64, 128), (1, 128)] {
        let counts = [u64::from(nodes), u64::from(links), 0];
        expect_read(&header(nodes, links, 0), counts, &[]);
    }
    // The first of several: mark, version, counts; a line count of 129 or 255 is none of them.
    expect_refused(b"XQS\x02\0\0\x01\0", 2);
    expect_refused(b"EQS\x02\0\0\x01\0", 3);
    expect_refused(&header(0, 1, 255), 4);
    expect_refused(&header(2, 1, 129), 1);
    expect_refused(&header(2, 1, 255), 1);
}

#[test]
fn products() {
    expect_probability([1_000_000_000, 1, 1], 1_000_000_000);
    expect_probability([1, 1_000, 1_000_000], 1_000_000_000);
    expect_probability([999_999_999, 1, 1], 999_999_999);
    expect_probability([570, 24, 80], 1_094_400);
    expect_probability([0, MOST, MOST], 0);
    expect_probability([MOST, 0, MOST], 0);
    expect_probability([MOST, MOST, 0], 0);
    let above = [
        [1_000_000_001, 1, 1],
        [1, 1, 1_000_000_001],
        [1_001, 1_000, 1_000],
        // 2^32, 2^64 and 2^64 + 21: nothing or little of them would be left in 32 or in 64 bits.
        [1 << 16, 1, 1 << 16],
        [1 << 31, 1 << 31, 1 << 2],
        [787, 19_950_191, 1_174_891_961],
        [MOST, MOST, 1],
        [MOST, MOST, MOST],
    ];
    for numbers in above {
        expect_refused(&sheet(&[line(numbers, &[0, 1])]), 17);
    }
}

#[test]
fn lines_and_members() {
    let right = sheet(&[line([1; 3], &[0, 1, 1, 0]), line([2; 3], &[])]);
    expect_read(&right, [2, 1, 2], &[8, 0, 0, 0, 1, 2, 1, 0]);
    for length in 8..right.len() {
        expect_refused(&right[..length], 1);
    }
    expect_refused(&[&right[..], &[0]].concat(), 11);
    let members: [&[u8]; 6] = [
        &[2, 0],
        &[0, 2],
        &[1, 1],
        &[1, 0, 0, 1],
        &[0, 1, 0, 1],
        &[0, 1, 0, 0],
    ];
    for members in members {
        expect_refused(&sheet(&[line([1; 3], members)]), 10);
        // 17 comes after a line's members and before the next line.
        expect_refused(&sheet(&[line([MOST; 3], members)]), 10);
        let lines = [line([MOST; 3], &[]), line([1; 3], members)];
        expect_refused(&sheet(&lines), 17);
    }
    // 17 before the bytes that are left, and before a line that is cut off.
    let above = sheet(&[line([MOST; 3], &[]), line([1; 3], &[])]);
    expect_refused(&[&above[..], &[0]].concat(), 17);
    expect_refused(&above[..30], 17);
}

#[test]
fn the_order_of_events() {
    let lines = [
        line([2, 3, 1], &[0, 0]),
        line([7, 1, 1], &[0, 1]),
        line([1, 1, 6], &[1, 0]),
        line([0, 5, 5], &[0, 0]),
        line([3, 1, 2], &[0, 0, 0, 1]),
        line([5, 5, 0], &[0, 1]),
    ];
    let words = [
        [7, 2, 0, 0],
        [6, 1, 0, 0],
        [6, 0, 1, 0],
        [6, 3, 0, 0],
        [0, 1, 0, 0],
        [0, 2, 0, 0],
    ];
    expect_read(&sheet(&lines), [2, 1, 6], &words.concat());
    let equal = vec![line([2, 3, 1], &[0, 1]); 3];
    expect_read(&sheet(&equal), [2, 1, 3], &[[6, 2, 0, 0]; 3].concat());
}

/// 128 lines of rising probability: line i of i, so the events are 127 to 0.
#[test]
fn the_most_lines() {
    let lines: Vec<_> = (0..128).map(|i| line([i, 1, 1], &[0, 1])).collect();
    let words: Vec<_> = (0..128).rev().flat_map(|i| [i, 2, 0, 0]).collect();
    expect_read(&sheet(&lines), [2, 1, 128], &words);
    let equal: Vec<_> = (0..128u8).map(|i| line([1; 3], &[1, i])).collect();
    let bytes = [header(1, 128, 128), equal.concat()].concat();
    let link = |i: u32| [1, 0, (1u128 << i) as u64, (1u128 << i >> 64) as u64];
    let words: Vec<_> = (0..128).flat_map(link).collect();
    expect_read(&bytes, [1, 128, 128], &words);
}

#[test]
fn more_lines_than_128() {
    for count in [129, 200, 255] {
        let mut lines = vec![line([1; 3], &[]); count];
        let bytes = sheet(&lines);
        expect_refused(&bytes, 18);
        expect_refused(&[&bytes[..], &[0]].concat(), 11);
        expect_refused(&bytes[..bytes.len() - 1], 1);
        lines[count - 1] = line([MOST; 3], &[0, 2]);
        expect_refused(&sheet(&lines), 10);
        lines[count - 1] = line([MOST; 3], &[0, 1]);
        expect_refused(&sheet(&lines), 17);
    }
}

#[test]
fn the_room_of_the_lists() {
    let short = |lines: usize, room: usize| {
        let bytes = sheet(&vec![line([1; 3], &[]); lines]);
        let answers = [sheets::read, sheets::read_records].map(|reader| {
            let (mut events, mut counts) = (vec![9; room], [9; 3]);
            let number = reader(&bytes, &mut events, &mut counts);
            assert!(number == 0 || (counts == [0; 3] && events == vec![9; room]));
            number
        });
        assert_eq!(answers[0], answers[1]);
        answers[0]
    };
    assert_eq!(
        [short(1, 0), short(1, 3), short(2, 7), short(128, 511)],
        [12; 4]
    );
    assert_eq!(
        [short(0, 0), short(1, 4), short(2, 8), short(128, 512)],
        [0; 4]
    );
    assert_eq!([short(129, 0), short(129, 515), short(255, 1_019)], [18; 3]);
}

#[test]
fn short_lists_of_counts() {
    let bytes = sheet(&[line([1; 3], &[])]);
    for reader in [sheets::read, sheets::read_records] {
        for length in 0..4 {
            let (mut events, mut counts) = ([9; 4], vec![9; length]);
            assert_eq!(reader(&bytes, &mut events, &mut counts), 0);
            assert_eq!(counts, [2, 1, 1][..length]);
            assert_eq!(events, [1, 0, 0, 0]);
            let mut counts = vec![9; length];
            assert_eq!(reader(&bytes, &mut [], &mut counts), 12);
            assert_eq!(counts, vec![0; length]);
        }
    }
}

/// The sheet that docs/FORMAT.md has byte by byte gives the events that the page says.
#[test]
fn the_sheet_of_the_page() {
    let page = include_str!("../../../docs/FORMAT.md");
    let after = page.split("The 38 bytes, in hexadecimal:").nth(1);
    let lines = after.expect("the page has the sheet").lines();
    let shown = lines.skip_while(|line| !line.starts_with("    "));
    let shown = shown.take_while(|line| line.starts_with("    "));
    let byte = |word| u8::from_str_radix(word, 16).expect("a byte in hexadecimal");
    let bytes: Vec<u8> = shown.flat_map(str::split_whitespace).map(byte).collect();
    assert_eq!(bytes.len(), 38);
    let words = [1_368_000, 0, 1, 0, 90_000, 2, 0, 0];
    expect_read(&bytes, [2, 1, 2], &words);
}
