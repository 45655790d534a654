//! What the numbers of refusals mean, in words.

/// What a refusal of a plan file means.
pub fn plan_reason(number: u32) -> &'static str {
    match number {
        1 => "the bytes end inside header, link, event or member",
        2 => "the mark is not RSG",
        3 => "the version is not 1",
        4 => "a count is out of range",
        5 => "the threshold is 0 or above 10^18",
        6 => "the cap is 0 or above 1000000",
        7 => "a link end is no node, or the first is not smaller than the second",
        8 => "a probability is above 10^9",
        9 => "a probability is above that of the event before",
        10 => "a member has a wrong kind or number, or does not rise",
        11 => "bytes are left after the last event",
        19 => "the quota of 10000000 ends is used up",
        21 => "a window breaks its range or names a missing element",
        22 => "the minute is above 10079",
        23 => "thresholds are 1 to 16 numbers from 1 to 10^18, each below the one before",
        _ => "see the table of refusals",
    }
}

/// What a refusal of an equipment sheet means.
pub fn sheet_reason(number: u32) -> &'static str {
    match number {
        1 => "the bytes end inside header, line or member",
        2 => "the mark is not EQS",
        11 => "bytes are left after the last line",
        17 => "FIT * hours * length of a line is above 10^9",
        18 => "there are more than 128 lines",
        _ => plan_reason(number),
    }
}

/// What a refusal of a credit means.
pub fn credit_reason(number: u32) -> &'static str {
    match number {
        13 => "a pair is two different nodes of the plan",
        20 => "FEE or RATE is above 10^12 cents, or LIMIT is above 31536000 seconds",
        _ => plan_reason(number),
    }
}

#[cfg(test)]
mod tests {
    use super::plan_reason;

    #[test]
    fn refused_thresholds_have_words() {
        let words = "thresholds are 1 to 16 numbers from 1 to 10^18, each below the one before";
        assert_eq!(plan_reason(23), words);
    }
}
