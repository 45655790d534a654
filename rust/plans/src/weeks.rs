//! Random lists of windows and minutes of the week, valid and damaged.

use account::topology::Out;
use account::windows::{Window, WINDOW_WORDS};
use account::{Event, Plan, CERTAIN, LARGEST_CAP};

use crate::rng::Rng;
use crate::valid::random_members;

/// The minutes of a week.
const WEEK: u64 = 10_080;

/// A list of windows as lent words, and a minute.
#[derive(Clone, Debug)]
pub struct Week {
    pub windows: Vec<u64>,
    pub minute: u64,
}

impl Week {
    /// These windows, five words for each, and a minute.
    pub fn of(windows: &[Window], minute: u64) -> Week {
        Week {
            windows: windows.iter().flat_map(Window::words).collect(),
            minute,
        }
    }
}

/// Start and end of a window: at both ends of the week, from the end of the window before on, for a minute, for some hours or
/// longer.
fn random_range(rng: &mut Rng, before: u64) -> (u64, u64) {
    let any = rng.between(0, WEEK - 1);
    let start = rng.pick(&[0, WEEK - 1, before % WEEK, any, any, any]);
    let hours = start + rng.between(1, 600);
    let longer = rng.between(start + 1, WEEK);
    let end = rng.pick(&[WEEK, start + 1, hours.min(WEEK), longer, longer]);
    (start, end)
}

/// A list of windows for these counts of nodes and links that meets no refusal; some lists are empty.
fn random_windows(rng: &mut Rng, nodes: usize, links: usize) -> Vec<Window> {
    let count = rng.pick(&[0, 1, 1, 2, 2, 3, 3, 4, 6, 30]);
    let mut windows: Vec<Window> = Vec::new();
    for _ in 0..count {
        let before = windows.last().map_or(0, |window| window.end);
        let (start, end) = random_range(rng, before);
        let (nodes, links) = random_members(rng, nodes, links);
        let out = Out { nodes, links };
        windows.push(Window { start, end, out });
    }
    windows
}

/// A minute of the week: most often at a window's start or end, on either side of it.
fn random_minute(rng: &mut Rng, windows: &[Window]) -> u64 {
    let any = rng.between(0, WEEK - 1);
    if windows.is_empty() || rng.one_in(6) {
        return rng.pick(&[0, WEEK - 1, any, any]);
    }
    let Window { start, end, .. } = rng.pick(windows);
    let near = [start.saturating_sub(1), start, end - 1, end];
    rng.pick(&near).min(WEEK - 1)
}

/// Windows for these counts and a minute, which meet no refusal.
pub fn windows_and_minute(rng: &mut Rng, nodes: usize, links: usize) -> (Vec<Window>, u64) {
    let windows = random_windows(rng, nodes, links);
    let minute = random_minute(rng, &windows);
    (windows, minute)
}

/// A plan of at most 127 events with one certain event more in front, which fails what is out. In it "works" has no mass and
/// is one end more, so the cap is one more too; random plans with the largest cap have fewer ends.
pub fn with_certain_event(plan: &Plan, out: Out) -> Plan {
    let event = Event {
        probability: CERTAIN,
        nodes: out.nodes,
        links: out.links,
    };
    let mut certain = plan.clone();
    certain.events.insert(0, event);
    certain.cap = LARGEST_CAP.min(plan.cap + 1);
    certain
}

/// Windows and a minute with one or two damages; some leave them such that meet no refusal.
pub fn damaged_week(rng: &mut Rng, mut week: Week, nodes: usize, links: usize) -> Week {
    for _ in 0..rng.between(1, 2) {
        match rng.below(5) {
            0 => week.minute = rng.pick(&[WEEK, WEEK + 1, 1 << 32, 1 << 63, u64::MAX]),
            1 => damage_tail(rng, &mut week.windows),
            _ => damage_window(rng, &mut week.windows, nodes, links),
        }
    }
    week
}

/// One to four words taken away, or so many more.
fn damage_tail(rng: &mut Rng, words: &mut Vec<u64>) {
    let count = rng.between(1, 4);
    if rng.one_in(2) {
        words.truncate(words.len().saturating_sub(count as usize));
    } else {
        words.extend((0..count).map(|_| rng.bits()));
    }
}

/// One window of the list with a wrong range, or with an element that may be past its count. An empty list gets one.
fn damage_window(rng: &mut Rng, words: &mut Vec<u64>, nodes: usize, links: usize) {
    if words.len() < WINDOW_WORDS {
        *words = vec![0, WEEK, 0, 0, 0];
    }
    let at = WINDOW_WORDS * rng.below(words.len() / WINDOW_WORDS);
    let window = &mut words[at..at + WINDOW_WORDS];
    match rng.below(4) {
        0 => window[0] = rng.pick(&[window[1], window[1].wrapping_add(1), WEEK, u64::MAX]),
        1 => window[1] = rng.pick(&[window[0], 0, WEEK + 1, 1 << 32, u64::MAX]),
        2 => window[2] |= 1 << rng.pick(&[nodes.min(63), 63]),
        _ => {
            let link = rng.pick(&[links.min(127), 64, 127]);
            window[3 + link / 64] |= 1 << (link % 64);
        }
    }
}
