//! The table "Refused" of document 01, and the numbers that document 02 adds.

/// Why a call is refused; the discriminant is the number that is returned.
#[derive(Clone, Copy, Debug, PartialEq, Eq, Hash, PartialOrd, Ord)]
#[repr(u32)]
pub enum Refusal {
    /// The bytes end inside header, link, event, line of equipment or member.
    Truncated = 1,
    /// The mark is not `RSG`, or for an equipment sheet not `EQS`.
    Mark = 2,
    /// The version is not 1.
    Version = 3,
    /// A count is out of range.
    Count = 4,
    /// The threshold is 0 or above one whole.
    Threshold = 5,
    /// The cap is 0 or above 1,000,000.
    Cap = 6,
    /// A link end is N or more, or the first is not smaller than the second.
    LinkEnds = 7,
    /// A probability is above 10^9.
    Probability = 8,
    /// A probability is above that of the event before.
    Rise = 9,
    /// A member has a wrong kind or number, or does not rise; a set has a bit at or past the count.
    Member = 10,
    /// Bytes are left after the last event or line of equipment.
    Trailing = 11,
    /// A lent list or buffer is too short.
    Short = 12,
    /// A pair without v < w < N; for the reach of a node, a v without v < N.
    Pair = 13,
    /// No examined scenario disconnects the pair.
    NoWitness = 14,
    /// The topology list has no entry left for a new topology.
    ListFull = 15,
    /// A mass above one whole is given to split or downtime.
    Mass = 16,
    /// FIT × hours × length of a line of equipment is above 10^9.
    Product = 17,
    /// A sheet has more than 128 lines.
    Lines = 18,
    /// The quota of ends is empty.
    Quota = 19,
    /// The fee or the rate of a contract is above 10^12 cents, or its limit above 31,536,000 seconds.
    Terms = 20,
    /// A window is not start < end ≤ 10,080, or it names a node or a link that the plan does not have.
    Window = 21,
    /// A minute of the week is above 10,079.
    Minute = 22,
    /// There is no threshold or more than 16, one is outside 1 to 10^18, or one is not below the one before.
    Thresholds = 23,
}

impl Refusal {
    /// The number of document 01 or 02.
    pub fn number(self) -> u32 {
        self as u32
    }
}

/// The number that a call returns: that of its refusal, or 0.
pub fn number<T>(answer: &Result<T, Refusal>) -> u32 {
    match answer {
        Ok(_) => 0,
        Err(refusal) => refusal.number(),
    }
}

/// The refusal where a test fails.
pub fn demand(holds: bool, refusal: Refusal) -> Result<(), Refusal> {
    if holds {
        Ok(())
    } else {
        Err(refusal)
    }
}
