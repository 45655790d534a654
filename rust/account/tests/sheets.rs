//! Equipment sheets, request U2: small sheets written down here byte by byte, with the number or the events of each.

use account::calls::{check_sheet, read_sheet};
use account::sheet::{layout, parse, Line, Sheet};
use account::Refusal;
use plans::sheet_bytes::{header, line};

const MOST: u32 = u32::MAX;
const BILLION: u32 = 1_000_000_000;

/// A sheet of two nodes and three links.
fn sheet(lines: &[Vec<u8>]) -> Vec<u8> {
    [header(2, 3, lines.len() as u8), lines.concat()].concat()
}

/// A sheet of so many lines without members, each of probability 6.
fn of_lines(count: usize) -> Vec<u8> {
    sheet(&vec![line([1, 2, 3], &[]); count])
}

/// The four words of each event of an accepted sheet.
#[track_caller]
fn events(bytes: &[u8]) -> Vec<[u64; 4]> {
    let mut words = vec![9; 4 * 128];
    let counts = read_sheet(bytes, &mut words).expect("an accepted sheet");
    let events = words.chunks_exact(4).take(counts[2] as usize);
    events.map(|e| [e[0], e[1], e[2], e[3]]).collect()
}

/// The probability of a sheet's only line, or the number of its refusal.
fn probability(numbers: [u32; 3]) -> Result<u64, u32> {
    let bytes = sheet(&[line(numbers, &[0, 1])]);
    match check_sheet(&bytes) {
        0 => Ok(events(&bytes)[0][0]),
        number => Err(number),
    }
}

#[test]
fn a_sheet_byte_by_byte() {
    #[rustfmt::skip]
    let bytes = [
        b'E', b'Q', b'S', 1, 0, 64, 128, 2,                           // 64 nodes, 128 links, two lines
        10, 0, 0, 0,  9, 0, 0, 0,  1, 0, 0, 0,  2,  0, 63,  1, 127,   // 10 × 9 × 1: node 63 and link 127
        0x3a, 2, 0, 0,  24, 0, 0, 0,  0x10, 1, 0, 0,  2,  1, 63,  1, 64, // 570 × 24 × 272: links 63 and 64
    ];
    assert_eq!(check_sheet(&bytes), 0);
    let mut words = [7; 10];
    assert_eq!(read_sheet(&bytes, &mut words), Ok([64, 128, 2]));
    let expected = [3_720_960, 0, 1 << 63, 1, 90, 1 << 63, 0, 1 << 63, 7, 7];
    assert_eq!(words, expected);
    let line = |[fit, hours, length]: [u32; 3], nodes, links| Line {
        fit,
        hours,
        length,
        nodes,
        links,
    };
    let whole = Sheet {
        nodes: 64,
        links: 128,
        lines: vec![
            line([10, 9, 1], 1 << 63, 1 << 127),
            line([570, 24, 272], 0, 3 << 63),
        ],
    };
    assert_eq!(parse(&bytes), Ok(whole.clone()));
    assert_eq!(layout(&whole), bytes);
}

#[test]
fn products_are_exact() {
    let cases = [
        ([MOST, MOST, MOST], Err(17)),
        ([0, MOST, MOST], Ok(0)),
        ([BILLION, 1, 1], Ok(1_000_000_000)),
        ([BILLION + 1, 1, 1], Err(17)),
        ([1_000, 1_000, 1_000], Ok(1_000_000_000)),
        ([1_001, 1_000, 1_000], Err(17)),
        // 2^32, 2^64 and 2^64 + 21: nothing or little of them would be left in 32 or in 64 bits.
        ([1 << 16, 1 << 16, 1], Err(17)),
        ([1 << 2, 1 << 31, 1 << 31], Err(17)),
        ([787, 19_950_191, 1_174_891_961], Err(17)),
    ];
    for (numbers, answer) in cases {
        for turn in 0..3 {
            let mut numbers = numbers;
            numbers.rotate_left(turn);
            assert_eq!(probability(numbers), answer, "{numbers:?}");
        }
    }
}

#[test]
fn events_fall_and_equal_ones_keep_their_order() {
    let lines = [
        line([2, 3, 1], &[0, 0]),
        line([7, 1, 1], &[0, 1]),
        line([1, 1, 6], &[1, 0]),
        line([0, 5, 5], &[1, 1]),
        line([3, 1, 2], &[1, 2]),
        line([4, 2, 1], &[]),
        line([5, 5, 0], &[0, 0, 1, 2]),
    ];
    let expected = [
        [8, 0, 0, 0],
        [7, 2, 0, 0],
        [6, 1, 0, 0],
        [6, 0, 1, 0],
        [6, 0, 4, 0],
        [0, 0, 2, 0],
        [0, 1, 4, 0],
    ];
    assert_eq!(events(&sheet(&lines)), expected);
    let twice = vec![line([2, 3, 1], &[0, 1]); 3];
    assert_eq!(events(&sheet(&twice)), [[6, 2, 0, 0]; 3]);
    assert_eq!(events(&sheet(&[])), [[0; 4]; 0]);
}

#[test]
fn headers() {
    for length in 0..8 {
        assert_eq!(check_sheet(&b"XXXXXXXX"[..length]), 1);
    }
    let with = |at: usize, byte: u8| {
        let mut bytes = header(2, 3, 0);
        bytes[at] = byte;
        check_sheet(&bytes)
    };
    assert_eq!(check_sheet(&[b'R', b'S', b'G', 1, 0, 2, 3, 0]), 2);
    for at in 0..3 {
        assert_eq!(with(at, b'X'), 2);
    }
    assert_eq!([with(3, 0), with(3, 2), with(4, 1)], [3; 3]);
    assert_eq!([with(5, 0), with(5, 65), with(6, 129)], [4; 3]);
    assert_eq!([with(5, 1), with(5, 64), with(6, 0), with(6, 128)], [0; 4]);
    assert_eq!([with(7, 1), with(7, 129), with(7, 255)], [1; 3]);
    // Mark, version, counts: the first that is wrong.
    assert_eq!(check_sheet(&[b'X', b'Q', b'S', 9, 9, 0, 0, 0]), 2);
    assert_eq!(check_sheet(&[b'E', b'Q', b'S', 9, 9, 0, 0, 0]), 3);
    assert_eq!(check_sheet(&[b'E', b'Q', b'S', 1, 0, 0, 0, 255]), 4);
}

#[test]
fn members_are_tested_as_in_a_plan() {
    let right: [&[u8]; 4] = [&[], &[0, 1], &[0, 0, 0, 1, 1, 0, 1, 2], &[0, 1, 1, 0]];
    for members in right {
        assert_eq!(check_sheet(&sheet(&[line([1; 3], members)])), 0);
    }
    let wrong: [&[u8]; 8] = [
        &[2, 0],
        &[255, 0],
        &[0, 2],
        &[1, 3],
        &[0, 1, 0, 0],
        &[0, 1, 0, 1],
        &[1, 0, 0, 1],
        &[1, 2, 1, 2],
    ];
    for members in wrong {
        assert_eq!(check_sheet(&sheet(&[line([1; 3], members)])), 10);
        // 17 comes after a line's members, and before the next line.
        assert_eq!(check_sheet(&sheet(&[line([MOST; 3], members)])), 10);
        let lines = [line([MOST; 3], &[]), line([1; 3], members)];
        assert_eq!(check_sheet(&sheet(&lines)), 17);
    }
}

#[test]
fn sheets_that_end_too_early() {
    let bytes = sheet(&[line([1; 3], &[0, 1, 1, 0]), line([MOST; 3], &[0, 1])]);
    for length in 0..bytes.len() {
        assert_eq!(check_sheet(&bytes[..length]), 1, "{length} bytes");
    }
    assert_eq!(check_sheet(&bytes), 17);
    // A member that is whole is tested before the next one is missed.
    let mut bytes = sheet(&[line([1; 3], &[0, 5, 0, 1])]);
    bytes.truncate(23);
    assert_eq!(check_sheet(&bytes), 10);
    bytes.truncate(22);
    assert_eq!(check_sheet(&bytes), 1);
}

#[test]
fn more_than_128_lines_are_read_to_their_end() {
    assert_eq!(check_sheet(&of_lines(128)), 0);
    for count in [129, 255] {
        let bytes = of_lines(count);
        assert_eq!(check_sheet(&bytes), 18);
        assert_eq!(check_sheet(&[&bytes[..], &[0]].concat()), 11);
        assert_eq!(check_sheet(&bytes[..bytes.len() - 1]), 1);
        let mut lines = vec![line([1, 2, 3], &[]); count];
        lines[count - 1] = line([MOST; 3], &[0, 2]);
        assert_eq!(check_sheet(&sheet(&lines)), 10);
        lines[count - 1] = line([MOST; 3], &[0, 1]);
        assert_eq!(check_sheet(&sheet(&lines)), 17);
    }
    assert_eq!(check_sheet(&[of_lines(1), vec![0]].concat()), 11);
}

#[test]
fn the_room_of_the_lent_list() {
    for (lines, room, answer) in [
        (0, 0, Ok([2, 3, 0])),
        (1, 3, Err(Refusal::Short)),
        (1, 4, Ok([2, 3, 1])),
        (2, 7, Err(Refusal::Short)),
        (128, 511, Err(Refusal::Short)),
        (128, 512, Ok([2, 3, 128])),
        (128, 600, Ok([2, 3, 128])),
        (129, 0, Err(Refusal::Lines)),
        (129, 600, Err(Refusal::Lines)),
    ] {
        let mut words = vec![9; room];
        assert_eq!(read_sheet(&of_lines(lines), &mut words), answer);
        let laid = answer.map_or(0, |counts| 4 * counts[2] as usize);
        assert!(words[..laid].chunks(4).all(|event| event == [6, 0, 0, 0]));
        assert!(words[laid..].iter().all(|&word| word == 9));
    }
    let cut = read_sheet(&of_lines(1)[..20], &mut []);
    assert_eq!(cut, Err(Refusal::Truncated));
}
