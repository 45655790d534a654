//! Equipment sheets, valid and damaged: check and both readers against the account, and plans of their events.

use account::file::parse as parse_plan;
use account::sheet::{layout, Sheet};
use account::{calls, number, Header, LARGEST_CAP, WHOLE};
use conformance::compare::{laid_down, lent_length, words};
use conformance::{probe, proved, sheets, Tally};
use plans::sheet_damage::random_sheet_file;
use plans::sheets::{random_sheet, sheet_of};
use plans::valid::links_between;
use plans::{Lists, Rng};

const SHEETS: usize = 30_000;

/// The check of a sheet beside the account's.
fn check(bytes: &[u8]) -> u32 {
    let refusal = sheets::check(bytes);
    assert_eq!(refusal, calls::check_sheet(bytes), "check of {bytes:?}");
    refusal
}

/// A length for the lent list of events: none, some, exactly enough with up to three words more, or more than that.
fn room(rng: &mut Rng, bytes: &[u8]) -> usize {
    let needed = 4 * usize::from(bytes.get(7).copied().unwrap_or(0));
    match rng.below(8) {
        0 => 0,
        1 => needed + rng.below(4),
        _ => lent_length(rng, needed),
    }
}

/// Both readers beside the account's, on lent lists with the same pattern.
fn read(rng: &mut Rng, bytes: &[u8]) -> u32 {
    let length = room(rng, bytes);
    let lent = words(rng, length);
    let length = rng.pick(&[0, 1, 2, 3, 3, 3, 3, 5]);
    let lent_counts = words(rng, length);
    let mut own_events = lent.clone();
    let expected = calls::read_sheet(bytes, &mut own_events);
    let own_counts = laid_down(&lent_counts, &expected.unwrap_or([0; 3]));
    let expected = number(&expected);
    for (name, reader) in [
        (
            "read",
            sheets::read as fn(&[u8], &mut [u64], &mut [u64]) -> u32,
        ),
        ("read_records", sheets::read_records),
    ] {
        let (mut events, mut counts) = (lent.clone(), lent_counts.clone());
        let refusal = reader(bytes, &mut events, &mut counts);
        assert_eq!(refusal, expected, "{name} of {bytes:?}");
        assert_eq!(counts, own_counts, "{name} of {bytes:?}");
        assert_eq!(events, own_events, "{name} of {bytes:?}");
    }
    expected
}

#[test]
fn check_and_readers_agree_on_many_sheets() {
    let mut rng = Rng::for_stream(91);
    let (mut checks, mut reads) = (Tally::default(), Tally::default());
    for _ in 0..SHEETS {
        let bytes = random_sheet_file(&mut rng);
        checks.add(check(&bytes));
        reads.add(read(&mut rng, &bytes));
    }
    checks.expect([0, 1, 2, 3, 4, 10, 11, 17, 18]);
    reads.expect([0, 1, 2, 3, 4, 10, 11, 12, 17, 18]);
}

#[test]
fn every_shorter_sheet_is_refused_alike() {
    let mut rng = Rng::for_stream(92);
    for i in 0..60 {
        let sheet = match i % 6 {
            0 => sheet_of(&mut rng, 255),
            _ => random_sheet(&mut rng),
        };
        let bytes = layout(&sheet);
        let step = 1 + bytes.len() / 300;
        for length in (0..bytes.len()).step_by(step) {
            assert_eq!(check(&bytes[..length]), 1);
            assert_eq!(read(&mut rng, &bytes[..length]), 1);
        }
    }
}

#[test]
fn sheets_of_any_length() {
    let mut rng = Rng::for_stream(93);
    let mut longer = layout(&sheet_of(&mut rng, 128));
    longer.resize(1_000_000, 0);
    let mut too_many = layout(&sheet_of(&mut rng, 255));
    too_many.resize(1_000_000, 0);
    for (bytes, number) in [(vec![0; 1_000_000], 2), (longer, 11), (too_many, 11)] {
        assert_eq!(check(&bytes), number);
        assert_eq!(read(&mut rng, &bytes), number);
    }
}

/// A random sheet whose links can have ends.
fn sheet_with_ends(rng: &mut Rng) -> Sheet {
    loop {
        let sheet = random_sheet(rng);
        if sheet.nodes > 1 || sheet.links == 0 {
            return sheet;
        }
    }
}

/// The lists of a plan: the proved events of a sheet, and links, threshold and cap at random.
fn plan_lists(rng: &mut Rng, sheet: &Sheet) -> Lists {
    let read = proved::read_sheet(&layout(sheet)).expect("an accepted sheet");
    let links = match read.links {
        0 => Vec::new(),
        count => links_between(rng, read.nodes, count),
    };
    let thresholds = [1, WHOLE, rng.between(1, WHOLE)];
    let caps = [1, LARGEST_CAP, rng.between(1, LARGEST_CAP)];
    Lists {
        header: Header {
            nodes: read.nodes as u64,
            links: read.links as u64,
            events: read.events.len() as u64,
            threshold: rng.pick(&thresholds),
            cap: rng.pick(&caps),
        },
        links: links
            .iter()
            .flat_map(|&(a, b)| [a as u8, b as u8])
            .collect(),
        events: read.events.iter().flat_map(|event| event.words()).collect(),
    }
}

#[test]
fn the_events_of_a_sheet_make_a_plan() {
    let mut rng = Rng::for_stream(94);
    for _ in 0..5_000 {
        let sheet = sheet_with_ends(&mut rng);
        let lists = plan_lists(&mut rng, &sheet);
        let bytes = proved::write(&lists);
        let bytes = bytes.unwrap_or_else(|number| panic!("write: {number}, {sheet:?}"));
        assert_eq!(probe::check(&bytes), 0, "{sheet:?}");
        let plan = parse_plan(&bytes).expect("a plan");
        assert_eq!(plan.events, sheet.events(), "{sheet:?}");
    }
}
