//! The listing for people: pairs by falling upper bound, in shares and in seconds a year.

use account::bounds::{Bounds, Outcome};
use account::{Plan, WHOLE};
use plans::Lists;

use crate::complete::help;
use crate::named::Named;
use crate::perfect::in_head;
use crate::progress::{whole_walk, Progress};
use crate::readings;
use crate::table::{columns, fields, share, worst_first, FIELDS};
use crate::windows::windows_are;
use crate::witness::{Witness, USUAL_PAIRS};

/// The listing of a plan, with the bounds of the proved walk, which is gone on with in steps; or the refusal's number.
pub fn listing(named: &Named, witness: Witness, progress: &mut Progress) -> Result<String, u32> {
    let made = in_steps(named, witness, progress);
    progress.clear();
    made
}

fn in_steps(named: &Named, witness: Witness, progress: &mut Progress) -> Result<String, u32> {
    let lists = Lists::of(&named.plan);
    let walk = whole_walk(&lists, progress)?;
    let (outcome, bounds) = (walk.look(), walk.bounds());
    let shown = witness.is_shown(bounds.len());
    let witnesses = shown.then(|| readings::witnesses(&lists, &bounds, progress));
    let head = [
        counts(named, &outcome, help(&lists, &outcome, progress)?),
        reading(&outcome),
        in_head(named),
        not_counted(named),
        left_out(witness, bounds.len()),
    ];
    Ok(head.concat() + "\n" + &table(named, &bounds, witnesses.as_deref()))
}

/// That windows are not counted, where a text has some.
fn not_counted(named: &Named) -> String {
    let said = windows_are(&named.windows).map(|windows| {
        format!("{windows} not counted; --at 'Tue 14:30' lists with what is out at that minute of the week.\n")
    });
    said.unwrap_or_default()
}

/// That the scenarios are left out, where nobody asked for that.
fn left_out(witness: Witness, pairs: usize) -> String {
    match witness == Witness::Usual && !witness.is_shown(pairs) {
        false => String::new(),
        true => format!(
            "{pairs} pairs are more than {USUAL_PAIRS}: the column of scenarios is left out, since the search for them takes long; \
             --witness shows it.\n"
        ),
    }
}

/// How many nodes, links and events a plan has.
pub fn sizes(plan: &Plan) -> String {
    let (links, events) = (plan.links.len(), plan.events.len());
    format!("{} nodes, {links} links, {events} events", plan.nodes)
}

/// How many scenarios a walk examined, whether it is complete, and their share.
pub fn examined(outcome: &Outcome) -> String {
    let completed = match outcome.complete {
        1 => "complete 1: the cap left nothing out",
        _ => "complete 0: the walk stopped at the cap",
    };
    let (count, share) = (outcome.count, share(outcome.mass));
    format!("{count} scenarios examined, {completed}; their share, E, is {share}")
}

/// The numbers of a plan, how far its walk went, and what helps where it stopped at the cap.
pub fn counts(named: &Named, outcome: &Outcome, help: Option<String>) -> String {
    let plan = &named.plan;
    let (sizes, examined) = (sizes(plan), examined(outcome));
    let help = help.map(|said| said + ".\n").unwrap_or_default();
    format!(
        "{sizes}, threshold {}, cap {}\n{examined}\n{help}",
        plan.threshold, plan.cap
    )
}

/// How the columns are read.
pub fn reading(outcome: &Outcome) -> String {
    format!(
        "The share of time that a pair is cut off lies between lower and upper, {} apart.\n\
         Seconds are of a year of 365 days: lower s is rounded down, upper s up.\n",
        share(WHOLE - outcome.mass),
    )
}

/// The failing events of a witness by name.
fn witness_text(named: &Named, witness: Option<u128>) -> String {
    match witness {
        None => "-".to_string(),
        Some(0) => "no event: no path joins them".to_string(),
        Some(set) => named.events_in(set).join(" + "),
    }
}

/// The title of the column of scenarios.
const WITNESS: &str = "first in the walk's order, not the likeliest";

fn table(named: &Named, bounds: &[Bounds], witnesses: Option<&[Option<u128>]>) -> String {
    let pairs = named.plan.pairs();
    let order = worst_first(bounds);
    let rows = order.iter().map(|&i| fields(named, pairs[i], bounds[i]));
    let lines = columns(FIELDS, rows.collect(), 0);
    let Some(witnesses) = witnesses else {
        return lines.join("\n") + "\n";
    };
    let mut last = vec![WITNESS.to_string()];
    last.extend(order.iter().map(|&i| witness_text(named, witnesses[i])));
    let lines = lines.into_iter().zip(last);
    lines
        .map(|(line, last)| line + "  " + &last + "\n")
        .collect()
}
