//! The listing for people at a minute of the week: the run with what planned work takes out, beside the walk without it.

use account::bounds::{Bounds, Outcome};
use account::windows::{out_at, Window};
use account::WHOLE;
use conformance::proved;
use plans::Lists;

use crate::complete::help;
use crate::listing::{counts, reading};
use crate::named::Named;
use crate::perfect::in_head;
use crate::progress::{whole_walk, Progress};
use crate::table::{columns, fields, share, worst_first, FIELDS};
use crate::week;
use crate::windows::NamedWindow;

/// The listing of a plan at a minute of the week, by the proved run with windows and the proved walk without; or the
/// refusal's number.
pub fn listing_at(named: &Named, minute: u64, progress: &mut Progress) -> Result<String, u32> {
    let made = with_and_without(named, minute, progress);
    progress.clear();
    made
}

fn with_and_without(named: &Named, minute: u64, progress: &mut Progress) -> Result<String, u32> {
    let lists = Lists::of(&named.plan);
    let without = whole_walk(&lists, progress)?.bounds();
    progress.work();
    let windows: Vec<Window> = named.windows.iter().map(|named| named.window).collect();
    let words: Vec<u64> = windows.iter().flat_map(Window::words).collect();
    let (outcome, bounds) = proved::run_at(&lists, &words, minute)?;
    let reading = match windows.iter().any(|window| window.holds(minute)) {
        true => reading_while(&outcome),
        false => reading(&outcome) + LAST_COLUMNS + ".\n",
    };
    let out = named.out(out_at(&windows, minute));
    let head = [
        counts(named, &outcome, help(&lists, &outcome, progress)?),
        holding(&named.windows, minute, &out),
        reading,
        in_head(named),
    ];
    Ok(head.concat() + "\n" + &table(named, &bounds, &without))
}

const LAST_COLUMNS: &str = "The last two columns are upper and upper s without the work";

/// Which windows hold a minute, and what is out.
fn holding(windows: &[NamedWindow], minute: u64, out: &[&str]) -> String {
    let (time, all) = (week::shown(minute), windows.len());
    if all == 0 {
        return format!(
            "The plan has no windows of planned work: nothing is out at {time}. A text may have them, a plan file has none.\n"
        );
    }
    let holding = windows.iter().filter(|named| named.window.holds(minute));
    let shown: Vec<String> = holding.map(NamedWindow::shown).collect();
    let out = match out {
        [] => "nothing".to_string(),
        _ => out.join(", "),
    };
    let count = match shown.len() {
        0 => "none".to_string(),
        count => count.to_string(),
    };
    let shown: String = shown.iter().map(|window| format!(", {window}")).collect();
    format!("Windows of planned work that hold {time}: {count} of {all}{shown}.\nOut: {out}.\n")
}

/// How the columns are read while work takes something out.
fn reading_while(outcome: &Outcome) -> String {
    format!(
        "While the work lasts, the share of time that a pair is cut off lies between lower and upper, {} apart.\n\
         Seconds are of a year of 365 days in which the work never ends: lower s is rounded down, upper s up.\n\
         {LAST_COLUMNS}: the difference shows what it costs while it lasts.\n",
        share(WHOLE - outcome.mass),
    )
}

fn table(named: &Named, bounds: &[Bounds], without: &[Bounds]) -> String {
    let pairs = named.plan.pairs();
    let row = |i: usize| {
        let [pair, lower, upper, lower_s, upper_s] = fields(named, pairs[i], bounds[i]);
        let [_, _, without, _, without_s] = fields(named, pairs[i], without[i]);
        [pair, lower, upper, lower_s, upper_s, without, without_s]
    };
    let [pair, lower, upper, lower_s, upper_s] = FIELDS;
    let (without, without_s) = ("upper without work", "upper s without work");
    let header = [pair, lower, upper, lower_s, upper_s, without, without_s];
    let rows = worst_first(bounds).into_iter().map(row);
    columns(header, rows.collect(), 0).join("\n") + "\n"
}
