//! The ring that is told by its equipment: the text holds the rows of document 002's table 2.

use account::sheet::{Line, Sheet};
use account::{Event, LARGEST_CAP};
use planner::{parse, parse_sheet, Named};
use plans::examples::folder;

/// Table 2, "Availability numbers of equipment": FIT, and MTTR in hours.
const TRANSPONDER: (u32, u32) = (3_400, 9);
const MUX: (u32, u32) = (10_000, 9);
const OXC: (u32, u32) = (10_000, 9);
const CABLE_KM: (u32, u32) = (570, 24);
const AMPLIFIER: (u32, u32) = (10_000, 9);

/// Document 001: 2 hours to repair, 2 × 10^6 hours between failures, in units of 10^-9.
const STATION: u32 = 1_000;

const STATIONS: [&str; 4] = ["Control", "Birch", "Cedar", "Dale"];

/// The links by their two ends, with the kilometres outside the duct and the number of amplifiers.
const LINKS: [(usize, usize, u32, usize); 4] =
    [(0, 1, 55, 0), (1, 2, 120, 1), (2, 3, 200, 2), (0, 3, 85, 1)];

/// The kilometres of the duct, which has links 0 and 3.
const DUCT_KM: u32 = 5;

fn line((fit, hours): (u32, u32), length: u32, nodes: u64, links: u128) -> Line {
    Line {
        fit,
        hours,
        length,
        nodes,
        links,
    }
}

/// So many equal boxes on each link, by link.
fn on_links(equipment: (u32, u32), count: impl Fn(usize) -> usize) -> Vec<Line> {
    let on = |link: usize| vec![line(equipment, 1, 0, 1 << link); count(link)];
    (0..4).flat_map(on).collect()
}

/// The lines in the order of the text.
fn ring() -> Vec<Line> {
    let on_nodes = |equipment| (0..4).map(move |node| line(equipment, 1, 1 << node, 0));
    let cable = |link: usize| line(CABLE_KM, LINKS[link].2, 0, 1 << link);
    let mut lines: Vec<Line> = on_nodes((STATION, 1)).chain(on_nodes(OXC)).collect();
    lines.extend(on_links(MUX, |_| 2));
    lines.extend(on_links(TRANSPONDER, |_| 2));
    lines.extend(on_links(AMPLIFIER, |link| LINKS[link].3));
    lines.extend((0..4).map(cable));
    lines.push(line(CABLE_KM, DUCT_KM, 0, 0b1001));
    lines
}

fn text() -> String {
    let text = std::fs::read_to_string(folder().join("equipment-ring.txt"));
    text.expect("the text of the ring")
}

fn named() -> Named {
    parse(&text()).expect("a text that says a plan")
}

#[test]
fn the_text_is_the_table() {
    let sheet = Sheet {
        nodes: 4,
        links: 4,
        lines: ring(),
    };
    assert_eq!(parse_sheet(&text()), Ok(sheet));
    let named = named();
    assert_eq!(named.nodes, STATIONS);
    let links = LINKS.map(|(first, second, ..)| (first, second));
    assert_eq!(named.plan.links, links);
    assert_eq!(
        (named.plan.threshold, named.plan.cap),
        (100_000_000, LARGEST_CAP)
    );
}

/// q of each kind: repair time over time between failures, MTBF = 10^9 hours over FIT.
#[test]
fn the_events_are_unavailabilities() {
    let q = |(fit, hours): (u32, u32), length: u32| u64::from(fit * hours * length);
    let cables = [200, 120, 85, 55].map(|km| q(CABLE_KM, km));
    assert_eq!(cables, [2_736_000, 1_641_600, 1_162_800, 752_400]);
    let mut expected = cables.to_vec();
    // 4 cross-connects, 8 multiplexers, 4 amplifiers; the duct; 8 transponders; 4 stations.
    expected.extend([90_000; 16]);
    expected.push(68_400);
    expected.extend([30_600; 8]);
    expected.extend([1_000; 4]);
    let events = named().plan.events;
    let qs: Vec<u64> = events.iter().map(|event| event.probability).collect();
    assert_eq!(qs, expected);
}

#[test]
fn the_page_shows_every_product() {
    let page = std::fs::read_to_string(folder().join("README.md")).expect("the page");
    let page = page.replace(',', "");
    let equipment = ring().into_iter().filter(|line| line.hours > 1);
    for line in equipment {
        let (fit, hours, length) = (line.fit, line.hours, line.length);
        let row = format!("| {fit} | {hours} | {length} | {} |", fit * hours * length);
        assert!(page.contains(&row), "{row}");
    }
}

#[test]
fn equal_ones_keep_the_order_of_the_text() {
    let named = named();
    let boxes: Vec<&str> = named.events[4..20].iter().map(String::as_str).collect();
    let kinds = boxes.iter().map(|name| name.split('-').next());
    let kinds: Vec<&str> = kinds.map(|kind| kind.expect("a name")).collect();
    let expected = [vec!["oxc"; 4], vec!["mux"; 8], vec!["amplifier"; 4]].concat();
    assert_eq!(kinds, expected);
    assert_eq!(
        boxes[..4],
        ["oxc-Control", "oxc-Birch", "oxc-Cedar", "oxc-Dale"]
    );
    let control = Event {
        probability: 90_000,
        nodes: 1,
        links: 0,
    };
    assert_eq!(named.plan.events[4], control);
    assert_eq!(named.events[20], "duct-at-Control");
}
