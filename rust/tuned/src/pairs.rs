//! The pairs that a topology disconnects: neighbours, reach, rows of pairs.

/// The sums of all pairs; 2,016 of the entries can be used, and a power of two needs no test of an index.
pub type Sums = [u64; 2048];

/// The elements that fail.
#[derive(Clone, Copy)]
pub struct Failed {
    pub nodes: u64,
    pub links_low: u64,
    pub links_high: u64,
}

/// One end of each link: its number, and the bit of the other end.
struct Ends {
    node: [u8; 128],
    other: [u64; 128],
}

/// A network as the loop over the links wants it.
pub struct Network {
    all: u64,
    links: usize,
    first: Ends,
    second: Ends,
    /// The place of the pair v, w in the order is `row[v] + w`.
    row: [usize; 64],
}

impl Network {
    pub fn new(nodes: usize, links: &[u8]) -> Network {
        let no_ends = || Ends {
            node: [0; 128],
            other: [0; 128],
        };
        let (mut first, mut second) = (no_ends(), no_ends());
        for (i, ends) in links.chunks_exact(2).enumerate() {
            first.node[i] = ends[0];
            first.other[i] = 1 << ends[1];
            second.node[i] = ends[1];
            second.other[i] = 1 << ends[0];
        }
        let mut row = [0usize; 64];
        let mut before = 0usize;
        for (v, place) in row.iter_mut().enumerate().take(nodes) {
            *place = before.wrapping_sub(v + 1);
            before += nodes - v - 1;
        }
        Network {
            all: u64::MAX >> (64 - nodes),
            links: links.len() / 2,
            first,
            second,
            row,
        }
    }

    /// Adds the links from one place to another to the neighbours; bit 0 of `on` is the first of them.
    #[inline(always)]
    fn join(&self, from: usize, to: usize, mut on: u64, neighbours: &mut [u64; 64]) {
        for i in from..to.min(128) {
            let works = (on & 1).wrapping_neg();
            neighbours[usize::from(self.first.node[i] & 63)] |= works & self.first.other[i];
            neighbours[usize::from(self.second.node[i] & 63)] |= works & self.second.other[i];
            on >>= 1;
        }
    }

    /// The neighbours of each node over the links that no event names. Nodes that are down are left to the reach.
    #[inline(always)]
    fn neighbours(&self, failed: &Failed) -> [u64; 64] {
        let mut neighbours = [0; 64];
        self.join(0, self.links.min(64), !failed.links_low, &mut neighbours);
        if self.links > 64 {
            self.join(64, self.links, !failed.links_high, &mut neighbours);
        }
        neighbours
    }

    /// Adds a mass to the pairs of v with the later nodes of a set.
    #[inline(always)]
    fn add_row(&self, v: usize, set: u64, mass: u64, sums: &mut Sums) {
        let row = self.row[v & 63];
        let mut later = set & (!1 << v);
        while later != 0 {
            let w = later.trailing_zeros() as usize;
            sums[row.wrapping_add(w) & 2047] += mass;
            later &= later - 1;
        }
    }

    /// Adds a mass to the pairs of each node of one set with the later nodes of another.
    #[inline(always)]
    fn add_rows(&self, nodes: u64, set: u64, mass: u64, sums: &mut Sums) {
        let mut left = nodes;
        while left != 0 {
            self.add_row(left.trailing_zeros() as usize, set, mass, sums);
            left &= left - 1;
        }
    }

    /// Adds a mass to every pair that is disconnected. One component serves all its nodes.
    pub fn add_disconnected(&self, failed: &Failed, mass: u64, sums: &mut Sums) {
        let working = self.all & !failed.nodes;
        let neighbours = self.neighbours(failed);
        let mut unseen = working;
        while unseen != 0 {
            let component = reach(&neighbours, unseen & unseen.wrapping_neg(), working);
            let outside = self.all & !component;
            if outside == 0 {
                return;
            }
            unseen &= !component;
            self.add_rows(component, outside, mass, sums);
        }
        self.add_rows(self.all & failed.nodes, self.all, mass, sums);
    }
}

/// The nodes that can be reached over working nodes, by rounds over the fresh ones.
#[inline(always)]
fn reach(neighbours: &[u64; 64], start: u64, working: u64) -> u64 {
    let mut reached = start;
    let mut fresh = start;
    while fresh != 0 {
        let mut found = 0;
        while fresh != 0 {
            found |= neighbours[fresh.trailing_zeros() as usize & 63];
            fresh &= fresh - 1;
        }
        fresh = found & working & !reached;
        reached |= fresh;
    }
    reached
}
