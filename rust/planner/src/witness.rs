//! Whether a listing has the column of witnesses: beside each pair the first examined scenario that cuts it.

/// What is asked for. Where there are many pairs, the search for their witnesses takes most of the time of a listing.
#[derive(Clone, Copy, Debug, PartialEq, Eq)]
pub enum Witness {
    /// The column where there are at most 500 pairs.
    Usual,
    Shown,
    LeftOut,
}

/// The most pairs with which a listing has the column without being asked for it.
pub const USUAL_PAIRS: usize = 500;

impl Witness {
    /// What the options --witness and --no-witness ask for, as they are given or not, or what is wrong with them. A listing at a
    /// minute of the week has no such column.
    pub fn of(shown: bool, left_out: bool, at_a_minute: bool) -> Result<Witness, String> {
        let both = match (shown, left_out, at_a_minute) {
            (false, false, _) => return Ok(Witness::Usual),
            (false, true, _) => return Ok(Witness::LeftOut),
            (true, false, false) => return Ok(Witness::Shown),
            (true, true, _) => "--witness or --no-witness; found both",
            (true, false, true) => {
                "--witness or --at; found both: the search for a scenario takes no windows"
            }
        };
        Err(format!("expected {both}"))
    }

    /// Whether a listing of so many pairs has the column.
    pub fn is_shown(self, pairs: usize) -> bool {
        match self {
            Witness::Usual => pairs <= USUAL_PAIRS,
            Witness::Shown => true,
            Witness::LeftOut => false,
        }
    }
}

#[cfg(test)]
mod tests {
    use super::Witness;

    #[test]
    fn options() {
        for at in [false, true] {
            assert_eq!(Witness::of(false, false, at), Ok(Witness::Usual));
            assert_eq!(Witness::of(false, true, at), Ok(Witness::LeftOut));
            let both = "expected --witness or --no-witness; found both";
            assert_eq!(Witness::of(true, true, at), Err(both.to_string()));
        }
        assert_eq!(Witness::of(true, false, false), Ok(Witness::Shown));
        let windows =
            "expected --witness or --at; found both: the search for a scenario takes no windows";
        assert_eq!(Witness::of(true, false, true), Err(windows.to_string()));
    }

    #[test]
    fn five_hundred_pairs() {
        let shown = |witness: Witness| [500, 501].map(|pairs| witness.is_shown(pairs));
        assert_eq!(shown(Witness::Usual), [true, false]);
        assert_eq!(shown(Witness::Shown), [true, true]);
        assert_eq!(shown(Witness::LeftOut), [false, false]);
    }
}
