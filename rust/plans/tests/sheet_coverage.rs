//! The random sheets meet the corners that the tests are meant to reach, and the damaged ones meet every refusal.

use account::calls::read_sheet;
use account::sheet::{parse, Line, Sheet};
use account::{number, CERTAIN};
use plans::sheet_damage::random_sheet_file;
use plans::sheets::random_sheet;
use plans::Rng;

/// A corner: its name, and whether a sheet is in it.
type Corner = (&'static str, fn(&Sheet) -> bool);

fn some_line(sheet: &Sheet, test: impl Fn(&Line) -> bool) -> bool {
    sheet.lines.iter().any(test)
}

fn some_two(sheet: &Sheet, test: impl Fn(&Line, &Line) -> bool) -> bool {
    sheet.lines.windows(2).any(|two| test(&two[0], &two[1]))
}

fn numbers(line: &Line) -> [u32; 3] {
    [line.fit, line.hours, line.length]
}

const LIMIT: u128 = CERTAIN as u128;

const CORNERS: [Corner; 18] = [
    ("no line", |sheet| sheet.lines.is_empty()),
    ("128 lines", |sheet| sheet.lines.len() == 128),
    ("64 nodes, 128 links", |sheet| {
        (sheet.nodes, sheet.links) == (64, 128)
    }),
    ("one node, links", |sheet| {
        sheet.nodes == 1 && sheet.links > 0
    }),
    ("no link", |sheet| sheet.links == 0),
    ("a product of 10^9", |sheet| {
        some_line(sheet, |line| line.product() == LIMIT)
    }),
    ("10^9 with no factor of 1", |sheet| {
        some_line(sheet, |line| {
            line.product() == LIMIT && !numbers(line).contains(&1)
        })
    }),
    ("next below 10^9", |sheet| {
        some_line(sheet, |line| {
            (LIMIT - 1_000..LIMIT).contains(&line.product())
        })
    }),
    ("FIT 0", |sheet| some_line(sheet, |line| line.fit == 0)),
    ("hours 0", |sheet| some_line(sheet, |line| line.hours == 0)),
    ("length 0", |sheet| {
        some_line(sheet, |line| line.length == 0)
    }),
    ("0 beside 2^32 - 1 twice", |sheet| {
        some_line(sheet, |line| {
            numbers(line).iter().filter(|&&n| n == u32::MAX).count() == 2
        })
    }),
    ("no member", |sheet| {
        some_line(sheet, |line| line.nodes == 0 && line.links == 0)
    }),
    ("node 63", |sheet| {
        some_line(sheet, |line| line.nodes >> 63 == 1)
    }),
    ("link 127", |sheet| {
        some_line(sheet, |line| line.links >> 127 == 1)
    }),
    ("192 members", |sheet| {
        some_line(sheet, |line| {
            (line.nodes, line.links) == (u64::MAX, u128::MAX)
        })
    }),
    ("a probability that rises", |sheet| {
        some_two(sheet, |one, next| one.product() < next.product())
    }),
    ("a tie of different members", |sheet| {
        some_two(sheet, |one, next| {
            one.product() == next.product() && one.links != next.links
        })
    }),
];

#[test]
fn every_corner_is_met() {
    let mut rng = Rng::for_stream(201);
    let mut met = [0u32; CORNERS.len()];
    for _ in 0..5_000 {
        let sheet = random_sheet(&mut rng);
        for (count, (_, holds)) in met.iter_mut().zip(&CORNERS) {
            *count += u32::from(holds(&sheet));
        }
    }
    for (count, (name, _)) in met.iter().zip(&CORNERS) {
        println!("{name}: {count}");
        assert!(*count > 0, "no sheet with: {name}");
    }
}

#[test]
fn every_random_sheet_is_accepted() {
    let mut rng = Rng::for_stream(202);
    for _ in 0..2_000 {
        let sheet = random_sheet(&mut rng);
        assert_eq!(parse(&account::sheet::layout(&sheet)), Ok(sheet));
    }
}

/// The answers of the reader of a sheet.
const ANSWERS: [u32; 10] = [0, 1, 2, 3, 4, 10, 11, 12, 17, 18];

#[test]
fn every_refusal_is_met() {
    let mut rng = Rng::for_stream(203);
    let mut met = [0u32; 19];
    // By more than 128 lines in the header: what is tested before 18.
    let mut met_by_many = [0u32; 19];
    for _ in 0..5_000 {
        let bytes = random_sheet_file(&mut rng);
        let mut words = vec![0; rng.below(600)];
        let answer = number(&read_sheet(&bytes, &mut words)) as usize;
        met[answer] += 1;
        met_by_many[answer] += u32::from(bytes.get(7).is_some_and(|&lines| lines > 128));
    }
    let answers = |met: &[u32]| {
        (0..19)
            .filter(|&n| met[n as usize] > 0)
            .collect::<Vec<u32>>()
    };
    assert_eq!(answers(&met), ANSWERS, "{met:?}");
    let by_many = [1, 2, 3, 4, 10, 11, 17, 18];
    assert_eq!(answers(&met_by_many), by_many, "{met_by_many:?}");
}
