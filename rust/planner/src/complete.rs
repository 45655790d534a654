//! What helps where a walk stopped at its cap: the lowest usual threshold at which it does not, and the gap there.

use account::bounds::Outcome;
use account::WHOLE;
use conformance::proved;
use plans::Lists;

use crate::asked::usual_thresholds;
use crate::progress::Progress;
use crate::table::share;
use crate::thresholds::grouped;

/// Nothing for a complete walk. For one that stopped at the cap, the lowest of the usual thresholds at which it is complete and
/// the gap there, by one proved call; or the refusal's number.
pub fn help(
    lists: &Lists,
    outcome: &Outcome,
    progress: &mut Progress,
) -> Result<Option<String>, u32> {
    if outcome.complete == 1 {
        return Ok(None);
    }
    progress.thresholds();
    let usual = usual_thresholds();
    let runs = proved::run_thresholds(lists, &usual)?;
    let runs = usual.into_iter().zip(runs.into_iter().map(|run| run.0));
    let lowest = runs.filter(|(_, outcome)| outcome.complete == 1).last();
    Ok(Some(said(lowest, WHOLE - outcome.mass)))
}

/// What is said of the lowest threshold at which the walk is complete, where there is one, beside the gap here.
fn said(lowest: Option<(u64, Outcome)>, here: u64) -> String {
    let Some((threshold, outcome)) = lowest else {
        return "10^15 down to 10^6 are ten thresholds at none of which the walk is complete within this cap: \
                a higher cap reaches more"
            .to_string();
    };
    let gap = WHOLE - outcome.mass;
    let beside = if gap < here { "less" } else { "not less" };
    format!(
        "{} is the lowest of ten thresholds, 10^15 down to 10^6, at which the walk is complete: \
         lower and upper would be {} apart, {beside} than here",
        grouped(threshold),
        share(gap)
    )
}
