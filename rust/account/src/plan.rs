//! A plan, and the lent lists that stand for one.

use crate::refusal::{demand, Refusal};
use crate::{CERTAIN, EVENT_WORDS, LARGEST_CAP, MOST_EVENTS, MOST_LINKS, MOST_NODES, WHOLE};

/// An event: its probability in 10^-9 and the elements that fail with it. Element i is bit i.
#[derive(Clone, Copy, Debug, PartialEq, Eq)]
pub struct Event {
    pub probability: u64,
    pub nodes: u64,
    pub links: u128,
}

/// A plan that meets every rule.
#[derive(Clone, Debug, PartialEq, Eq)]
pub struct Plan {
    pub nodes: usize,
    pub links: Vec<(usize, usize)>,
    pub events: Vec<Event>,
    pub threshold: u64,
    pub cap: u64,
}

/// The five numbers that come with lent lists. Any number may be given; the tests are below.
#[derive(Clone, Copy, Debug, PartialEq, Eq)]
pub struct Header {
    pub nodes: u64,
    pub links: u64,
    pub events: u64,
    pub threshold: u64,
    pub cap: u64,
}

/// Numbers and lent lists in place of a file. No entry past a count is used.
#[derive(Clone, Copy, Debug)]
pub struct Lent<'a> {
    pub header: Header,
    pub links: &'a [u8],
    pub events: &'a [u64],
}

impl Header {
    /// Refusals 4 to 6.
    pub fn test(&self) -> Result<(), Refusal> {
        let counts = (1..=MOST_NODES).contains(&self.nodes)
            && self.links <= MOST_LINKS
            && self.events <= MOST_EVENTS;
        demand(counts, Refusal::Count)?;
        demand((1..=WHOLE).contains(&self.threshold), Refusal::Threshold)?;
        demand((1..=LARGEST_CAP).contains(&self.cap), Refusal::Cap)
    }
}

impl Event {
    /// The event of four words.
    pub fn of_words(words: &[u64]) -> Event {
        Event {
            probability: words[0],
            nodes: words[1],
            links: u128::from(words[2]) | u128::from(words[3]) << 64,
        }
    }

    /// The four words of an event.
    pub fn words(&self) -> [u64; EVENT_WORDS] {
        [
            self.probability,
            self.nodes,
            self.links as u64,
            (self.links >> 64) as u64,
        ]
    }
}

impl Lent<'_> {
    /// The plan that the lists stand for, after the writer's tests: 4 to 6, 12 for the two lists,
    /// each link 7, each event 8, 9, 10.
    pub fn plan(&self) -> Result<Plan, Refusal> {
        self.header.test()?;
        let links = self.header.links as usize;
        let events = self.header.events as usize;
        let long_enough =
            self.links.len() >= 2 * links && self.events.len() >= EVENT_WORDS * events;
        demand(long_enough, Refusal::Short)?;
        let mut plan = Plan::empty(&self.header);
        for ends in self.links.chunks_exact(2).take(links) {
            plan.push_link(ends[0], ends[1])?;
        }
        for words in self.events.chunks_exact(EVENT_WORDS).take(events) {
            let event = Event::of_words(words);
            plan.test_probability(event.probability)?;
            demand(plan.has(event.nodes, event.links), Refusal::Member)?;
            plan.events.push(event);
        }
        Ok(plan)
    }
}

impl Plan {
    /// The plan of a tested header, before its links and events.
    pub fn empty(header: &Header) -> Plan {
        Plan {
            nodes: header.nodes as usize,
            links: Vec::new(),
            events: Vec::new(),
            threshold: header.threshold,
            cap: header.cap,
        }
    }

    /// One more link, or 7.
    pub fn push_link(&mut self, first: u8, second: u8) -> Result<(), Refusal> {
        let (first, second) = (usize::from(first), usize::from(second));
        demand(first < second && second < self.nodes, Refusal::LinkEnds)?;
        self.links.push((first, second));
        Ok(())
    }

    /// The tests of the next event's probability: 8, then 9.
    pub fn test_probability(&self, probability: u64) -> Result<(), Refusal> {
        demand(probability <= CERTAIN, Refusal::Probability)?;
        match self.events.last() {
            Some(before) => demand(probability <= before.probability, Refusal::Rise),
            None => Ok(()),
        }
    }

    /// Whether every bit of both sets is below the counts.
    pub fn has(&self, nodes: u64, links: u128) -> bool {
        let node_past = (self.nodes..64).any(|node| nodes >> node & 1 == 1);
        let link_past = (self.links.len()..128).any(|link| links >> link & 1 == 1);
        !node_past && !link_past
    }

    /// The numbers of the plan.
    pub fn header(&self) -> Header {
        Header {
            nodes: self.nodes as u64,
            links: self.links.len() as u64,
            events: self.events.len() as u64,
            threshold: self.threshold,
            cap: self.cap,
        }
    }

    /// The links as lent bytes, two for each.
    pub fn link_bytes(&self) -> Vec<u8> {
        let ends = |&(first, second): &(usize, usize)| [first as u8, second as u8];
        self.links.iter().flat_map(ends).collect()
    }

    /// The events as lent words, four for each.
    pub fn event_words(&self) -> Vec<u64> {
        self.events.iter().flat_map(Event::words).collect()
    }

    /// The pairs of the plan's nodes.
    pub fn pairs(&self) -> Vec<(usize, usize)> {
        pairs(self.nodes)
    }
}

/// The pairs v < w of so many nodes, by v, then w.
pub fn pairs(nodes: usize) -> Vec<(usize, usize)> {
    let of = |v| (v + 1..nodes).map(move |w| (v, w));
    (0..nodes).flat_map(of).collect()
}
