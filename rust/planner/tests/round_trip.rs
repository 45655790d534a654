//! From text to file and back: names are lost in the file, nothing else is.

use conformance::proved;
use planner::{parse, print, Named, NamedWindow};
use plans::valid::{plan_of_size, random_plan, FULL};
use plans::weeks::windows_and_minute;
use plans::{Lists, Rng};

/// The file of a text, by the proved writer.
fn file_of(text: &str) -> Vec<u8> {
    let named = parse(text).expect("a text that says a plan");
    proved::write(&Lists::of(&named.plan)).expect("a plan that meets no refusal")
}

/// The text of a file, by the proved reader.
fn text_of(bytes: &[u8]) -> String {
    let lists = proved::read(bytes).expect("a plan file");
    let plan = lists.lent().plan().expect("a plan that was read");
    print(&Named::by_number(plan))
}

#[test]
fn a_file_comes_back_from_its_text() {
    let mut rng = Rng::for_stream(71);
    for i in 0..3_000 {
        let plan = match i % 20 {
            0 => plan_of_size(&mut rng, FULL),
            _ => random_plan(&mut rng),
        };
        let bytes = account::file::layout(&plan);
        let text = text_of(&bytes);
        let again = file_of(&text);
        assert_eq!(again, bytes, "{text}");
        assert_eq!(file_of(&text_of(&again)), bytes, "{text}");
    }
}

#[test]
fn names_come_back_from_a_text() {
    let mut rng = Rng::for_stream(72);
    for _ in 0..1_000 {
        let mut named = Named::by_number(random_plan(&mut rng));
        let names = named.nodes.iter_mut().chain(&mut named.links);
        for name in names.chain(&mut named.events) {
            name.push_str(rng.pick(&["", "-Süd", "_1", ".a", "(east)"]));
        }
        assert_eq!(parse(&print(&named)), Ok(named));
    }
}

/// A random plan with random windows.
fn random_named(rng: &mut Rng) -> Named {
    let mut named = Named::by_number(random_plan(rng));
    let (windows, _) = windows_and_minute(rng, named.nodes.len(), named.links.len());
    let numbered = windows.into_iter().enumerate();
    let with_name = |(i, window)| NamedWindow {
        name: format!("w{i}"),
        window,
    };
    named.windows = numbered.map(with_name).collect();
    named
}

#[test]
fn windows_come_back_from_a_text() {
    let mut rng = Rng::for_stream(77);
    let mut windows = 0;
    for _ in 0..1_000 {
        let named = random_named(&mut rng);
        windows += named.windows.len();
        assert_eq!(parse(&print(&named)), Ok(named));
    }
    assert!(windows > 1_000, "{windows} windows");
}

/// The lines of windows stand after those of events; without windows nothing is added.
#[test]
fn windows_are_printed_by_name() {
    let start = "threshold 7\ncap 9\n\nnode A\nnode B\n\nlink AB A B\n\nevent x 5 A\n";
    let windows = "window dig Tue 08:00 Tue 16:00 B AB\nwindow night Sun 22:00 Sun 24:00\n";
    let text = format!("{start}\n{windows}");
    for text in [start, &text] {
        let named = parse(text).expect("a text that says a plan");
        assert_eq!(print(&named), text);
    }
    let other = "window dig Tue 08:00 Tue 16:00 AB B\nwindow night Sun 22:00 Sun 24:00\n";
    let before_events = start.replace("event", &format!("{other}event"));
    assert_eq!(parse(&before_events), parse(&text));
}

#[test]
fn ends_and_members_may_stand_in_any_order() {
    let start = "cap 9\nthreshold 7\nnode A\nnode B\n";
    let one = format!("{start}link AB A B\nevent x 5 A B AB\n");
    let other = format!("{start}link AB B A\nevent x 5 AB B A\n");
    assert_eq!(file_of(&one), file_of(&other));
}

#[test]
fn line_ends_and_a_byte_order_mark_say_nothing() {
    let text = "cap 9\nthreshold 7\nnode A\nnode B\nlink AB A B\nevent x 5 A B AB\n";
    let windows = format!("\u{feff}{}", text.replace('\n', "\r\n"));
    assert_eq!(file_of(&windows), file_of(text));
    assert_eq!(file_of(text.trim_end()), file_of(text));
}

/// One change to a text: words exchanged, lines exchanged, a piece taken out or put in.
fn damage(rng: &mut Rng, text: &str) -> String {
    let mut lines: Vec<String> = text.lines().map(str::to_string).collect();
    let (i, j) = (rng.below(lines.len()), rng.below(lines.len()));
    match rng.below(4) {
        0 => lines.swap(i, j),
        1 => drop(lines.remove(i)),
        2 => lines[i] = lines[j].clone(),
        _ => {
            let mut words: Vec<&str> = lines[i].split(' ').collect();
            let word = rng.below(words.len());
            words[word] = rng.pick(&[
                "",
                "#",
                "n0",
                "l0",
                "e0",
                "-1",
                "0",
                "1000000000",
                "_",
                "Mon",
                "Sun",
                "24:00",
            ]);
            lines[i] = words.join(" ");
        }
    }
    lines.join("\n")
}

#[test]
fn a_damaged_text_has_a_fault_or_says_a_plan() {
    let mut rng = Rng::for_stream(73);
    let (mut faults, mut plans) = (0, 0);
    for _ in 0..3_000 {
        let text = print(&random_named(&mut rng));
        let damaged = damage(&mut rng, &text);
        match parse(&damaged) {
            Ok(named) => {
                proved::write(&Lists::of(&named.plan)).expect("a plan that meets no refusal");
                let test = |named_window: &NamedWindow| named_window.window.test(&named.plan);
                assert!(named.windows.iter().all(|w| test(w).is_ok()), "{damaged}");
                plans += 1;
            }
            Err(fault) => {
                assert!(
                    (1..=damaged.lines().count()).contains(&fault.line),
                    "{damaged}"
                );
                faults += 1;
            }
        }
    }
    assert!(
        faults > 300 && plans > 300,
        "{faults} faults, {plans} plans"
    );
}
