//! Planned work by the week, request U7: windows in which nodes and links are taken out, and the run at a minute.

use crate::bounds::Outcome;
use crate::calls::{run_into, test_room};
use crate::plan::{Lent, Plan};
use crate::refusal::{demand, Refusal};
use crate::topology::Out;

/// The minutes of a week; the first is 0.
pub const WEEK_MINUTES: u64 = 10_080;

/// The 64-bit words of one window in a lent list: start, end, nodes, links 0 to 63, links 64 to 127.
pub const WINDOW_WORDS: usize = 5;

/// A window by minute of the week, start included, end not, and what is taken out in it. Any number may be given; the test is
/// below.
#[derive(Clone, Copy, Debug, PartialEq, Eq)]
pub struct Window {
    pub start: u64,
    pub end: u64,
    pub out: Out,
}

impl Window {
    /// The window of five words.
    pub fn of_words(words: &[u64]) -> Window {
        Window {
            start: words[0],
            end: words[1],
            out: Out {
                nodes: words[2],
                links: u128::from(words[3]) | u128::from(words[4]) << 64,
            },
        }
    }

    /// The five words of a window.
    pub fn words(&self) -> [u64; WINDOW_WORDS] {
        let Out { nodes, links } = self.out;
        [
            self.start,
            self.end,
            nodes,
            links as u64,
            (links >> 64) as u64,
        ]
    }

    /// The test of its range and of its elements: 21.
    pub fn test(&self, plan: &Plan) -> Result<(), Refusal> {
        let range = self.start < self.end && self.end <= WEEK_MINUTES;
        let elements = plan.has(self.out.nodes, self.out.links);
        demand(range && elements, Refusal::Window)
    }

    /// Whether the minute is in the window.
    pub fn holds(&self, minute: u64) -> bool {
        (self.start..self.end).contains(&minute)
    }
}

/// What is out at a minute: the union over all windows that hold it.
pub fn out_at(windows: &[Window], minute: u64) -> Out {
    let holding = windows.iter().filter(|window| window.holds(minute));
    holding.fold(Out::NOTHING, |out, window| out.with(window.out))
}

/// The windows of a lent list, all of it used: 12 where words at its tail make no whole window.
pub fn windows_of(words: &[u64]) -> Result<Vec<Window>, Refusal> {
    let windows = words.chunks_exact(WINDOW_WORDS);
    demand(windows.remainder().is_empty(), Refusal::Short)?;
    Ok(windows.map(Window::of_words).collect())
}

/// The run with windows, at a minute of the week: the tests of the lists, 12 for the two lists of bounds and for the list of
/// windows, each window 21, then 22.
pub fn run_at(
    lent: &Lent,
    windows: &[u64],
    minute: u64,
    lower: &mut [u64],
    upper: &mut [u64],
) -> Result<Outcome, Refusal> {
    let plan = lent.plan()?;
    test_room(&plan, 1, lower, upper)?;
    let windows = windows_of(windows)?;
    for window in &windows {
        window.test(&plan)?;
    }
    demand(minute < WEEK_MINUTES, Refusal::Minute)?;
    Ok(run_into(&plan, out_at(&windows, minute), lower, upper))
}
