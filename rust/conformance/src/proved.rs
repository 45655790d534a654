//! A whole plan by the proved code: its lists from a file, its file, its bounds, at once, at a minute of the week, at several
//! thresholds or in steps, and the lines of its listing; and the events of an equipment sheet.

use account::bounds::{Bounds, Outcome};
use account::listing::text;
use account::plan::pairs;
use account::thresholds::MOST_THRESHOLDS;
use account::{Event, Header, EVENT_WORDS, MOST_EVENTS, MOST_LINKS};
use plans::Lists;

use crate::{panel, probe, sheets, thresholds, windows};

/// The most pairs of a plan.
pub const MOST_PAIRS: usize = 2016;

/// The longest plan file.
const LONGEST: usize = 50_068;

/// The lists of a plan file, exactly as long as its counts, or the refusal's number.
pub fn read(bytes: &[u8]) -> Result<Lists, u32> {
    let mut links = vec![0; 2 * MOST_LINKS as usize];
    let mut events = vec![0; EVENT_WORDS * MOST_EVENTS as usize];
    let (refusal, n) = probe::read(bytes, &mut links, &mut events);
    if refusal != 0 {
        return Err(refusal);
    }
    let header = Header {
        nodes: n[0],
        links: n[1],
        events: n[2],
        threshold: n[3],
        cap: n[4],
    };
    links.truncate(2 * header.links as usize);
    events.truncate(EVENT_WORDS * header.events as usize);
    Ok(Lists {
        header,
        links,
        events,
    })
}

/// The plan file of lists, or the refusal's number.
pub fn write(lists: &Lists) -> Result<Vec<u8>, u32> {
    let mut bytes = vec![0; LONGEST];
    match probe::write(&lists.lent(), &mut bytes) {
        (0, size) => {
            bytes.truncate(size as usize);
            Ok(bytes)
        }
        (refusal, _) => Err(refusal),
    }
}

/// What a run gives: count, complete and E, and the bounds of every pair.
pub type Run = (Outcome, Vec<Bounds>);

/// The run over all pairs of lists that meet no refusal.
pub fn run(lists: &Lists) -> Run {
    let run = run_by(lists, |lower, upper| {
        probe::run(&lists.lent(), lower, upper)
    });
    run.expect("the run of a plan that meets no refusal")
}

/// The run with windows, five words for each, at a minute of the week, or the refusal's number.
pub fn run_at(lists: &Lists, list: &[u64], minute: u64) -> Result<Run, u32> {
    run_by(lists, |lower, upper| {
        windows::run_at(&lists.lent(), list, minute, lower, upper)
    })
}

/// The runs at several thresholds, one for each, in one walk, or the refusal's number. The threshold of the lists is not used.
pub fn run_thresholds(lists: &Lists, list: &[u64]) -> Result<Vec<Run>, u32> {
    let room = list.len().min(MOST_THRESHOLDS) * MOST_PAIRS;
    let (mut lower, mut upper) = (vec![0; room], vec![0; room]);
    let (refusal, totals) = thresholds::run_thresholds(&lists.lent(), list, &mut lower, &mut upper);
    if refusal != 0 {
        return Err(refusal);
    }
    let outcomes = thresholds::outcomes_of(&totals).into_iter();
    let run = |(i, outcome)| (outcome, bounds_of(lists, i, &lower, &upper));
    Ok(outcomes.take(list.len()).enumerate().map(run).collect())
}

/// What a call lays down in two lists that have room for every plan, or the refusal's number.
fn run_by(
    lists: &Lists,
    call: impl FnOnce(&mut [u64], &mut [u64]) -> (u32, [u64; 3]),
) -> Result<Run, u32> {
    let (mut lower, mut upper) = (vec![0; MOST_PAIRS], vec![0; MOST_PAIRS]);
    let (refusal, totals) = call(&mut lower, &mut upper);
    if refusal != 0 {
        return Err(refusal);
    }
    let bounds = bounds_of(lists, 0, &lower, &upper);
    Ok((Outcome::of_words(totals), bounds))
}

/// Block i of two lists: the bounds of every pair.
fn bounds_of(lists: &Lists, i: usize, lower: &[u64], upper: &[u64]) -> Vec<Bounds> {
    let nodes = lists.header.nodes as usize;
    let pairs = nodes * (nodes - 1) / 2;
    let entries = lower.iter().zip(upper).skip(i * pairs).take(pairs);
    let bounds = entries.map(|(&lower, &upper)| Bounds { lower, upper });
    bounds.collect()
}

/// A walk that is begun and gone on with, in words of its own.
#[derive(Clone)]
pub struct Walk {
    words: Vec<u64>,
    nodes: usize,
}

impl Walk {
    /// Begins the walk of a plan, or the refusal's number.
    pub fn begin(lists: &Lists) -> Result<Walk, u32> {
        let mut words = vec![0; panel::walk_words()];
        match panel::begin(&lists.lent(), &mut words) {
            0 => Ok(Walk {
                words,
                nodes: lists.header.nodes as usize,
            }),
            refusal => Err(refusal),
        }
    }

    /// Goes on for at most k ends and draws them on the quota: how many were reached, or the refusal's number.
    pub fn go_on(&mut self, quota: &mut u64, k: u64) -> Result<u64, u32> {
        let (mut left, mut reached) = ([*quota], [0]);
        let refusal = panel::go_on(&mut self.words, &mut left, k, &mut reached);
        *quota = left[0];
        match refusal {
            0 => Ok(reached[0]),
            _ => Err(refusal),
        }
    }

    /// Count, complete and E so far.
    pub fn look(&self) -> Outcome {
        let mut result = [0; 3];
        let refusal = panel::look(&self.words, &mut result);
        assert_eq!(refusal, 0, "a look at a walk");
        Outcome::of_words(result)
    }

    /// The bounds of every pair so far.
    pub fn bounds(&self) -> Vec<Bounds> {
        let pairs = pairs(self.nodes).into_iter();
        pairs.map(|(v, w)| self.look_pair(v, w)).collect()
    }

    fn look_pair(&self, v: usize, w: usize) -> Bounds {
        let mut result = [0; 2];
        let refusal = panel::look_pair(&self.words, v as u64, w as u64, &mut result);
        assert_eq!(refusal, 0, "a look at the pair {v}, {w} of a walk");
        let [lower, upper] = result;
        Bounds { lower, upper }
    }
}

/// The lines of document 01's listing for lists that meet no refusal.
pub fn plan_listing(lists: &Lists) -> String {
    let (outcome, bounds) = run(lists);
    text(&lists.header, &outcome, &bounds)
}

/// The lines of document 01's listing for an input.
pub fn listing(bytes: &[u8]) -> String {
    match read(bytes) {
        Ok(lists) => plan_listing(&lists),
        Err(refusal) => format!("refused {refusal}\n"),
    }
}

/// What an equipment sheet gives: its counts of nodes and links, and its events.
#[derive(Clone, Debug, PartialEq, Eq)]
pub struct SheetEvents {
    pub nodes: usize,
    pub links: usize,
    pub events: Vec<Event>,
}

/// The events of an equipment sheet, or the refusal's number.
pub fn read_sheet(bytes: &[u8]) -> Result<SheetEvents, u32> {
    let mut words = vec![0; EVENT_WORDS * MOST_EVENTS as usize];
    let mut counts = [0; 3];
    let refusal = sheets::read(bytes, &mut words, &mut counts);
    if refusal != 0 {
        return Err(refusal);
    }
    let [nodes, links, lines] = counts.map(|count| count as usize);
    let events = words.chunks_exact(EVENT_WORDS).take(lines);
    Ok(SheetEvents {
        nodes,
        links,
        events: events.map(Event::of_words).collect(),
    })
}
