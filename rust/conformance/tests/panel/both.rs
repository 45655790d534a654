//! A walk of the proved code beside the account's, and the quota that both draw on.

use account::bounds::{Bounds, Outcome};
use account::panel::{begin, Begun, Quota};
use account::{number, Plan};
use conformance::panel;
use plans::Lists;

use crate::{all_bounds, begun, look, UNSET};

/// What is left for the proved code, as a lent list, and for the account.
pub struct Quotas {
    pub words: Vec<u64>,
    pub own: Quota,
}

impl Quotas {
    /// A quota with so many ends, and a word after it that no call may change.
    pub fn of(left: u64) -> Quotas {
        Quotas {
            words: vec![left, UNSET],
            own: Quota { left },
        }
    }
}

/// The same walk by both.
pub struct Both {
    pub state: Vec<u64>,
    pub own: Begun,
    nodes: usize,
}

impl Both {
    /// Begins the walk of a plan.
    pub fn begin(plan: &Plan) -> Both {
        let both = Both {
            state: begun(plan),
            own: begin(&Lists::of(plan).lent()).expect("a plan that meets no refusal"),
            nodes: plan.nodes,
        };
        both.expect_looks();
        both
    }

    /// Goes on by both and compares all that is answered and shown. Returns the refusal's number.
    pub fn go_on(&mut self, quotas: &mut Quotas, k: u64) -> u32 {
        let before = self.state.clone();
        let expected = self.own.go_on(&mut quotas.own, k);
        let mut reached = [UNSET; 2];
        let refusal = panel::go_on(&mut self.state, &mut quotas.words, k, &mut reached);
        assert_eq!(refusal, number(&expected), "{k} of {:?}", self.own);
        let own_reached = expected.unwrap_or(0);
        assert_eq!(reached, [own_reached, UNSET], "{k} of {:?}", self.own);
        let own_words = [quotas.own.left, UNSET];
        assert_eq!(quotas.words, own_words, "{k} of {:?}", self.own);
        if own_reached == 0 {
            assert!(self.state == before, "the walk moved: {:?}", self.own);
        }
        self.expect_looks();
        refusal
    }

    /// What looks show is what the account shows: count, complete, E and the bounds of every pair.
    pub fn expect_looks(&self) {
        let (outcome, bounds) = self.own.look_all();
        let Outcome {
            count,
            complete,
            mass,
        } = outcome;
        let shown = look(&self.state);
        assert_eq!(shown, (0, [count, complete, mass]), "{:?}", self.own);
        let words = |bound: &Bounds| [bound.lower, bound.upper];
        let expected: Vec<[u64; 2]> = bounds.iter().map(words).collect();
        let found = all_bounds(&self.state, self.nodes);
        assert_eq!(found, expected, "{:?}", self.own);
    }
}
