//! The distances between the nodes of a network, by the method of Floyd and Warshall: a second way to the reach of a node,
//! without rounds and without the account's topologies.

use account::rounds::Network;

/// More links than any path has that comes to no node twice.
const NO_PATH: u64 = 1_000;

/// For each two nodes the fewest working links from one to the other; `NO_PATH` where none lead there.
pub struct Distances(Vec<Vec<u64>>);

impl Distances {
    /// The distances in a network that meets no refusal.
    pub fn of(network: &Network) -> Distances {
        let mut table = single_links(network);
        let nodes = table.len();
        for by in 0..nodes {
            for from in 0..nodes {
                for to in 0..nodes {
                    let around = table[from][by] + table[by][to];
                    table[from][to] = table[from][to].min(around);
                }
            }
        }
        Distances(table)
    }

    /// The nodes that a node reaches, and one more than the greatest distance to one of them; none, and 1, where it is down.
    pub fn reach(&self, v: usize) -> [u64; 2] {
        let (mut nodes, mut farthest) = (0, 0);
        for (w, &distance) in self.0[v].iter().enumerate() {
            if distance < NO_PATH {
                nodes |= 1 << w;
                farthest = farthest.max(distance);
            }
        }
        [nodes, farthest + 1]
    }
}

/// The distances by at most one link: 0 from each working node to itself, 1 between the ends of a working link.
fn single_links(network: &Network) -> Vec<Vec<u64>> {
    let nodes = network.nodes as usize;
    let node_works = |node: usize| network.failed_nodes >> node & 1 == 0;
    let mut table = vec![vec![NO_PATH; nodes]; nodes];
    for node in (0..nodes).filter(|&node| node_works(node)) {
        table[node][node] = 0;
    }
    for link in 0..network.links_count as usize {
        let first = usize::from(network.links[2 * link]);
        let second = usize::from(network.links[2 * link + 1]);
        let failed = network.failed_links >> link & 1 == 1;
        if !failed && node_works(first) && node_works(second) {
            table[first][second] = 1;
            table[second][first] = 1;
        }
    }
    table
}
