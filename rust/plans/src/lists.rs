//! Numbers and lists that a caller lends in place of a file.

use account::{Header, Lent, Plan};

use crate::rng::Rng;

/// The lists of a plan, owned, so that they can be damaged.
#[derive(Clone, Debug)]
pub struct Lists {
    pub header: Header,
    pub links: Vec<u8>,
    pub events: Vec<u64>,
}

impl Lists {
    /// The lists of a plan, exactly as long as its counts.
    pub fn of(plan: &Plan) -> Lists {
        Lists {
            header: plan.header(),
            links: plan.link_bytes(),
            events: plan.event_words(),
        }
    }

    /// The same lists with random entries past the counts, which no call may use.
    pub fn with_spare(mut self, rng: &mut Rng) -> Lists {
        let spare = rng.below(9);
        self.links.extend(rng.bytes(spare));
        let spare = rng.below(9);
        self.events.extend((0..spare).map(|_| rng.bits()));
        self
    }

    /// The lists as they are lent.
    pub fn lent(&self) -> Lent<'_> {
        Lent {
            header: self.header,
            links: &self.links,
            events: &self.events,
        }
    }
}
