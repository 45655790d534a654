//! What `planner check` says of a plan.

use account::WHOLE;
use plans::Lists;

use crate::complete::help;
use crate::listing::examined;
use crate::named::Named;
use crate::perfect::full_warnings;
use crate::progress::{whole_walk, Progress};
use crate::table::share;

/// The lines of a check, and whether none of them is a warning.
#[derive(Debug, PartialEq, Eq)]
pub struct Checked {
    pub lines: String,
    pub clean: bool,
}

impl Checked {
    /// The line of a plan that is refused, from what other commands tell of it, which names the file first.
    pub fn refused(from: &str, told: &str) -> Checked {
        let said = told
            .strip_prefix(from)
            .and_then(|rest| rest.strip_prefix(": "));
        let said = said.unwrap_or(told);
        let lines = match said.starts_with("refused ") {
            true => format!("{said}\n"),
            false => format!("refused: {said}\n"),
        };
        Checked {
            lines,
            clean: false,
        }
    }
}

/// A line for each warning, and one for the walk, which is a warning too where the walk stopped at the cap; or the refusal's
/// number.
pub fn check(named: &Named, progress: &mut Progress) -> Result<Checked, u32> {
    let checked = checked(named, progress);
    progress.clear();
    checked
}

fn checked(named: &Named, progress: &mut Progress) -> Result<Checked, u32> {
    let lists = Lists::of(&named.plan);
    let outcome = whole_walk(&lists, progress)?.look();
    let mut warnings = full_warnings(named);
    let walk = format!(
        "{}; the bounds of every pair are {} apart",
        examined(&outcome),
        share(WHOLE - outcome.mass)
    );
    let last = match help(&lists, &outcome, progress)? {
        None => walk + "\n",
        Some(help) => {
            warnings.extend([walk, help]);
            String::new()
        }
    };
    let lines = warnings.iter().map(|said| format!("warning: {said}\n"));
    Ok(Checked {
        lines: lines.collect::<String>() + &last,
        clean: warnings.is_empty(),
    })
}
