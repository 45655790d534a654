//! The text of the listing program.

use crate::bounds::{run, Bounds, Outcome};
use crate::file::parse;
use crate::plan::{pairs, Header};
use crate::topology::Out;

/// A line of decimal numbers.
fn line(numbers: &[u64]) -> String {
    let fields: Vec<String> = numbers.iter().map(u64::to_string).collect();
    fields.join(" ") + "\n"
}

/// The lines of a listing, from what a run answered and the bounds of all pairs.
pub fn text(header: &Header, outcome: &Outcome, bounds: &[Bounds]) -> String {
    let mut text = line(&[
        header.nodes,
        header.links,
        header.events,
        outcome.count,
        outcome.complete,
        outcome.mass,
    ]);
    for ((v, w), bound) in pairs(header.nodes as usize).into_iter().zip(bounds) {
        text += &line(&[v as u64, w as u64, bound.lower, bound.upper]);
    }
    text
}

/// What the listing program writes for an input.
pub fn listing(bytes: &[u8]) -> String {
    match parse(bytes) {
        Ok(plan) => {
            let (outcome, bounds) = run(&plan, Out::NOTHING);
            text(&plan.header(), &outcome, &bounds)
        }
        Err(refusal) => format!("refused {}\n", refusal.number()),
    }
}
