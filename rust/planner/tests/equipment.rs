//! Texts with equipment: all their events go through one sheet, whatever the order of their lines.

use account::sheet::{layout, Line, Sheet};
use account::{Event, Plan};
use conformance::proved;
use planner::{parse, parse_sheet, print, Named};
use plans::sheets::random_sheet;
use plans::valid::random_plan;
use plans::{Lists, Rng};

/// A text of two stations and a link; five events, three of them with q = 6.
const TEXT: &str = "\
threshold 1
cap 100
node A
node B
link AB A B
event low 6 A
equipment cable 2 1 3 AB
equipment oxc 0 9 1 B
event high 7 B A
equipment terminal 3 2 1 AB B
";

fn event(probability: u64, nodes: u64, links: u128) -> Event {
    Event {
        probability,
        nodes,
        links,
    }
}

#[test]
fn events_and_names_fall_together() {
    let named = parse(TEXT).expect("it says a plan");
    assert_eq!(named.events, ["high", "low", "cable", "terminal", "oxc"]);
    let events = [
        event(7, 3, 0),
        event(6, 1, 0),
        event(6, 0, 1),
        event(6, 2, 1),
        event(0, 2, 0),
    ];
    assert_eq!(named.plan.events, events);
}

/// A plan has no equipment: its text has events alone, and says the same.
#[test]
fn the_plan_is_printed_as_events() {
    let named = parse(TEXT).expect("it says a plan");
    let text = print(&named);
    let lines =
        "event high 7 A B\nevent low 6 A\nevent cable 6 AB\nevent terminal 6 B AB\nevent oxc 0 B\n";
    assert!(text.ends_with(&format!("\n\n{lines}")), "{text}");
    assert_eq!(parse(&text), Ok(named));
}

#[test]
fn the_sheet_has_the_lines_of_the_text() {
    #[rustfmt::skip]
    let bytes = [
        b'E', b'Q', b'S', 1, 0, 2, 1, 5,
        6, 0, 0, 0,  1, 0, 0, 0,  1, 0, 0, 0,  1,  0, 0,
        2, 0, 0, 0,  1, 0, 0, 0,  3, 0, 0, 0,  1,  1, 0,
        0, 0, 0, 0,  9, 0, 0, 0,  1, 0, 0, 0,  1,  0, 1,
        7, 0, 0, 0,  1, 0, 0, 0,  1, 0, 0, 0,  2,  0, 0,  0, 1,
        3, 0, 0, 0,  2, 0, 0, 0,  1, 0, 0, 0,  2,  0, 1,  1, 0,
    ];
    assert_eq!(layout(&parse_sheet(TEXT).expect("it says a sheet")), bytes);
}

/// The lines of nodes and links of a plan without events.
fn start(nodes: usize, links: &[(usize, usize)]) -> String {
    let plan = Plan {
        nodes,
        links: links.to_vec(),
        events: Vec::new(),
        threshold: 1,
        cap: 1,
    };
    print(&Named::by_number(plan))
}

/// The names of a line's members, from a random one on.
fn members(rng: &mut Rng, line: &Line) -> String {
    let nodes = (0..64).filter(|i| line.nodes >> i & 1 == 1);
    let links = (0..128).filter(|i| line.links >> i & 1 == 1);
    let nodes = nodes.map(|i| format!(" n{i}"));
    let mut names: Vec<String> = nodes.chain(links.map(|i| format!(" l{i}"))).collect();
    let first = rng.below(names.len() + 1);
    names.rotate_left(first);
    names.concat()
}

/// A text with the lines of a sheet by the names x0, x1 and so on. A line is an `event` at random, and then the sheet's
/// line is changed to FIT q, 1 hour and length 1.
fn random_text(rng: &mut Rng, sheet: &mut Sheet) -> String {
    let mut text = start(sheet.nodes, &vec![(0, 1); sheet.links]);
    for (i, line) in sheet.lines.iter_mut().enumerate() {
        let members = members(rng, line);
        let Line {
            fit, hours, length, ..
        } = *line;
        if i > 0 && rng.one_in(2) {
            let q = line.product();
            text += &format!("event x{i} {q}{members}\n");
            (line.fit, line.hours, line.length) = (q as u32, 1, 1);
        } else {
            text += &format!("equipment x{i} {fit} {hours} {length}{members}\n");
        }
    }
    text
}

/// Holds the names to the lines of a sheet: each line once, by falling q, equal ones in the order of the lines.
fn expect_names(named: &Named, sheet: &Sheet) {
    let number = |name: &String| name[1..].parse().expect("a number");
    let numbers: Vec<usize> = named.events.iter().map(number).collect();
    assert_eq!(numbers.len(), sheet.lines.len());
    for (&i, event) in numbers.iter().zip(&named.plan.events) {
        let line = &sheet.lines[i];
        let own = (line.product() as u64, line.nodes, line.links);
        assert_eq!((event.probability, event.nodes, event.links), own);
    }
    for two in numbers.windows(2) {
        let [one, next] = [two[0], two[1]].map(|i| sheet.lines[i].product());
        assert!(
            one > next || (one == next && two[0] < two[1]),
            "{numbers:?}"
        );
    }
}

#[test]
fn random_texts() {
    let mut rng = Rng::for_stream(75);
    for _ in 0..2_000 {
        let mut sheet = random_sheet(&mut rng);
        if sheet.nodes == 1 && sheet.links > 0 {
            continue;
        }
        let text = random_text(&mut rng, &mut sheet);
        let named = parse(&text).unwrap_or_else(|fault| panic!("{fault}: {text}"));
        assert_eq!(named.plan.events, sheet.events(), "{text}");
        expect_names(&named, &sheet);
        let again = parse_sheet(&text).expect("it says a sheet");
        assert_eq!(again, sheet, "{text}");
        let file = proved::write(&Lists::of(&named.plan));
        assert!(file.is_ok(), "{text}");
    }
}

/// A text of events says the same plan where some or all of them are told as equipment of 1 hour and length 1.
#[test]
fn events_as_equipment() {
    let mut rng = Rng::for_stream(76);
    for _ in 0..1_000 {
        let named = Named::by_number(random_plan(&mut rng));
        let every = rng.between(1, 3);
        let line = |line: &str| match line.strip_prefix("event ") {
            Some(rest) if rng.one_in(every) => {
                let words: Vec<&str> = rest.splitn(3, ' ').collect();
                let members = words.get(2).copied().unwrap_or("");
                format!("equipment {} {} 1 1 {members}", words[0], words[1])
            }
            _ => line.to_string(),
        };
        let text: Vec<String> = print(&named).lines().map(line).collect();
        assert_eq!(parse(&text.join("\n")), Ok(named));
    }
}
