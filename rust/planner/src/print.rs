//! The writer of the text form.

use account::Event;
use conformance::proved::SheetEvents;

use crate::named::{members, numbered, Named};
use crate::week;
use crate::windows::NamedWindow;

/// The text that says a plan and its windows.
pub fn print(named: &Named) -> String {
    let plan = &named.plan;
    let mut text = format!("threshold {}\ncap {}\n\n", plan.threshold, plan.cap);
    for name in &named.nodes {
        text += &format!("node {name}\n");
    }
    text += "\n";
    for (name, &(first, second)) in named.links.iter().zip(&plan.links) {
        let (first, second) = (&named.nodes[first], &named.nodes[second]);
        text += &format!("link {name} {first} {second}\n");
    }
    text += "\n";
    for (name, event) in named.events.iter().zip(&plan.events) {
        text += &event_line(name, event, &named.nodes, &named.links);
    }
    if !named.windows.is_empty() {
        text += "\n";
    }
    for window in &named.windows {
        text += &window_line(window, named);
    }
    text
}

/// The events of an equipment sheet as lines of the text form, with n0, l0, e0 and so on for names.
pub fn print_events(sheet: &SheetEvents) -> String {
    let (nodes, links) = (numbered('n', sheet.nodes), numbered('l', sheet.links));
    let names = numbered('e', sheet.events.len());
    let lines = names.iter().zip(&sheet.events);
    lines
        .map(|(name, event)| event_line(name, event, &nodes, &links))
        .collect()
}

/// The line of one event.
fn event_line(name: &str, event: &Event, nodes: &[String], links: &[String]) -> String {
    let q = event.probability.to_string();
    let mut words = vec!["event", name, &q];
    words.extend(members((event.nodes, event.links), nodes, links));
    words.join(" ") + "\n"
}

/// The line of one window.
fn window_line(NamedWindow { name, window }: &NamedWindow, named: &Named) -> String {
    let (start, end) = (week::shown(window.start), week::shown_end(window.end));
    let mut words = vec!["window", name, &start, &end];
    words.extend(named.out(window.out));
    words.join(" ") + "\n"
}
