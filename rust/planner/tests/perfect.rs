//! What a check says of random plans, beside what their texts say.

use planner::{check, print, Named, NamedWindow, Progress};
use plans::valid::random_plan;
use plans::weeks::windows_and_minute;
use plans::Rng;

/// A random plan, half of the time with one event and window at most, so that something is left perfect.
fn random_named(rng: &mut Rng) -> Named {
    let mut plan = random_plan(rng);
    if rng.one_in(2) {
        plan.events.truncate(1);
    }
    let mut named = Named::by_number(plan);
    let (windows, _) = windows_and_minute(rng, named.nodes.len(), named.links.len());
    let name = |(i, window)| NamedWindow {
        name: format!("w{i}"),
        window,
    };
    named.windows = windows.into_iter().enumerate().map(name).collect();
    named
}

/// The words of the lines of a text that start so.
fn lines<'a>(text: &'a str, keyword: &str) -> Vec<Vec<&'a str>> {
    let lines = text.lines().map(|line| line.split(' ').collect());
    let lines = lines.filter(|words: &Vec<&str>| words[0] == keyword);
    lines.collect()
}

/// The names of what a text leaves perfect: nodes, links, events without members, with probability 0, and windows.
fn perfect(text: &str) -> [Vec<&str>; 5] {
    let events = lines(text, "event");
    let is_named = |name: &str| events.iter().any(|words| words[3..].contains(&name));
    let unnamed = |keyword: &str| {
        let names = lines(text, keyword).into_iter().map(|words| words[1]);
        names.filter(|name| !is_named(name)).collect()
    };
    let empty = events.iter().filter(|words| words.len() == 3);
    let never = events.iter().filter(|words| words[2] == "0");
    let windows = lines(text, "window").into_iter();
    let idle = windows.filter(|words| words.len() == 6);
    [
        unnamed("node"),
        unnamed("link"),
        empty.map(|words| words[1]).collect(),
        never.map(|words| words[1]).collect(),
        idle.map(|words| words[1]).collect(),
    ]
}

/// The names of each warning, by what stands in it.
fn warned(lines: &str) -> [Vec<&str>; 5] {
    let kinds = [
        ("node", "named by no event"),
        ("link", "named by no event"),
        ("event", "no members"),
        ("event", "a probability of 0"),
        ("window", "no members"),
    ];
    kinds.map(|(thing, what)| {
        let of_kind = |line: &&str| {
            let words: Vec<&str> = line.split(' ').collect();
            let right =
                words[0] == "warning:" && words.get(2).is_some_and(|w| w.starts_with(thing));
            right && line.contains(what)
        };
        let line = lines.lines().find(of_kind);
        let names = line.and_then(|line| line.rsplit(": ").next());
        names.map_or(Vec::new(), |names| names.split(", ").collect())
    })
}

#[test]
fn a_check_names_what_the_text_leaves_perfect() {
    let mut rng = Rng::for_stream(78);
    let mut met = [0; 5];
    for _ in 0..500 {
        let named = random_named(&mut rng);
        let checked = check(&named, &mut Progress::unseen()).expect("a plan that meets no refusal");
        let text = print(&named);
        let expected = perfect(&text);
        assert_eq!(warned(&checked.lines), expected, "{text}");
        let clean = checked
            .lines
            .lines()
            .all(|line| !line.starts_with("warning: "));
        assert_eq!(checked.clean, clean, "{text}");
        for (met, names) in met.iter_mut().zip(&expected) {
            *met += usize::from(!names.is_empty());
        }
    }
    assert!(met.iter().all(|&met| met > 10), "{met:?}");
}
