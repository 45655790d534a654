//! The credits of a contract for two nodes of a plan, in words for people.

use account::credit::{Contract, MOST_CENTS};
use account::readings::YEAR_SECONDS;
use plans::Lists;

use crate::line::whole_number;
use crate::named::Named;
use crate::readings::{due, Due};
use crate::refused::credit_reason;

/// What a reader of credits has to know of them.
const NOTE: &str = "\
Amounts are in units of 100 cents. The downtime is the mean over years, as the plan's bounds give it;
the credit is that of this downtime, not the mean of the credits of single years.
";

/// The credits of a contract for two nodes by name, or why they are refused.
pub fn credit(named: &Named, nodes: [&str; 2], contract: &Contract) -> Result<String, String> {
    let (a, b) = (named.node(nodes[0])?, named.node(nodes[1])?);
    match due(&Lists::of(&named.plan), (a.min(b), a.max(b)), contract) {
        Ok(due) => Ok(text(nodes, contract, &due)),
        Err(number) => Err(refused(nodes, contract, number)),
    }
}

/// The contract that the words FEE, LIMIT and RATE say, or what is wrong with them. Whether its numbers are within their limits
/// is for the proved code to say.
pub fn contract([fee, limit, rate]: [&str; 3]) -> Result<Contract, String> {
    Ok(Contract {
        fee: term("FEE in cents", MOST_CENTS, fee)?,
        limit: term("LIMIT in seconds", YEAR_SECONDS, limit)?,
        rate: term("RATE in cents", MOST_CENTS, rate)?,
    })
}

fn term(what: &str, most: u64, word: &str) -> Result<u64, String> {
    let expected = || format!("expected {what} as a whole number from 0 to {most}; found `{word}`");
    whole_number(word).ok_or_else(expected)
}

/// What was asked for, and why the proved code refuses it.
fn refused([first, second]: [&str; 2], contract: &Contract, number: u32) -> String {
    let Contract { fee, limit, rate } = contract;
    let reason = credit_reason(number);
    format!(
        "{first} and {second}, FEE {fee}, LIMIT {limit}, RATE {rate}: refused {number}, {reason}"
    )
}

fn text([first, second]: [&str; 2], contract: &Contract, due: &Due) -> String {
    let [lower, upper] = due.seconds;
    format!(
        "{first} and {second}: fee {} a year, limit {} a year, {} for each started minute above it.\n\
         Downtime: {} a year of 365 days.\n\
         Credit: {}.\n\
         Headroom, limit less upper downtime: {}. {}.\n\
         {NOTE}",
        amount(contract.fee),
        seconds(contract.limit),
        amount(contract.rate),
        range(lower, upper, seconds),
        credit_words(contract, due),
        signed_seconds(due.headroom),
        headroom_words(contract.limit, due),
    )
}

/// Cents as an amount in units of 100 cents.
fn amount(cents: u64) -> String {
    format!("{}.{:02}", cents / 100, cents % 100)
}

fn seconds(number: u64) -> String {
    match number {
        1 => "1 second".to_string(),
        _ => format!("{number} seconds"),
    }
}

fn signed_seconds(number: i64) -> String {
    let sign = if number < 0 { "-" } else { "" };
    format!("{sign}{}", seconds(number.unsigned_abs()))
}

/// What lies between two numbers.
fn range(lower: u64, upper: u64, shown: fn(u64) -> String) -> String {
    match lower == upper {
        true => format!("exactly {}", shown(upper)),
        false => format!("at least {} and at most {}", shown(lower), shown(upper)),
    }
}

fn credit_words(contract: &Contract, due: &Due) -> String {
    let [lower, upper] = due.credits;
    let none = "none is due".to_string();
    match upper {
        0 if due.headroom >= 0 => none,
        0 if contract.fee == 0 => none + ", since the fee is 0.00",
        0 => none + ", since the rate is 0.00",
        _ if upper == contract.fee => range(lower, upper, amount) + ", the whole fee",
        _ => range(lower, upper, amount),
    }
}

/// How the downtime lies beside the limit.
fn headroom_words(limit: u64, due: &Due) -> String {
    let [lower, upper] = due.seconds;
    let subject = match lower == upper {
        true => "The downtime",
        false => "Even the upper downtime",
    };
    if upper < limit {
        return format!("{subject} is {} below the limit", seconds(limit - upper));
    }
    if upper == limit {
        return format!("{subject} is exactly at the limit and not above it");
    }
    match lower.checked_sub(limit) {
        None | Some(0) => format!(
            "The downtime may be above the limit, by at most {}; the lower downtime is not above it",
            seconds(upper - limit)
        ),
        Some(least) => format!(
            "The downtime is above the limit, by {}",
            range(least, upper - limit, seconds)
        ),
    }
}
