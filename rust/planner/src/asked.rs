//! What the words after `planner thresholds PLAN` ask for.

use std::ffi::OsStr;

use account::WHOLE;

use crate::line::whole_number;

/// The file of a picture, and the two nodes that are named for it, if any.
#[derive(Clone, Copy, Debug, PartialEq, Eq)]
pub struct Drawing<'a> {
    pub file: &'a OsStr,
    pub nodes: Option<[&'a str; 2]>,
}

impl<'a> Drawing<'a> {
    /// A picture of two nodes, which are different, or of no nodes that are named.
    pub fn of(file: &'a OsStr, nodes: &[&'a str]) -> Result<Drawing<'a>, String> {
        let nodes = match *nodes {
            [first, second] if first == second => {
                let expected = "--pair: expected two different nodes";
                return Err(format!("{expected}; found `{first}` twice"));
            }
            [first, second] => Some([first, second]),
            _ => None,
        };
        Ok(Drawing { file, nodes })
    }
}

/// The thresholds that words say, or what is wrong with them; the usual ones where there is no word. Whether they are within
/// their limits and fall is for the proved code to say.
pub fn thresholds(words: &[&str]) -> Result<Vec<u64>, String> {
    match words {
        [] => Ok(usual_thresholds()),
        _ => words.iter().map(|word| threshold(word)).collect(),
    }
}

/// The ten thresholds of a call that gives none: 10^15 down to 10^6.
pub fn usual_thresholds() -> Vec<u64> {
    (6..=15).rev().map(|decade| 10_u64.pow(decade)).collect()
}

fn threshold(word: &str) -> Result<u64, String> {
    let expected = || {
        let range = format!("a whole number from 1 to {WHOLE} in units of 10^-18");
        format!("expected a threshold, {range}, --svg FILE or --pair NODE NODE; found `{word}`")
    };
    whole_number(word).ok_or_else(expected)
}
