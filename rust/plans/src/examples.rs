//! The folder `examples/`, and the plans there that are made in Rust.

use std::path::{Path, PathBuf};

use account::file::layout;
use account::{Event, Plan, CERTAIN, LARGEST_CAP};

/// An example file: its name and its bytes.
pub struct Example {
    pub name: &'static str,
    pub bytes: Vec<u8>,
}

/// The folder `examples/` of the repository.
pub fn folder() -> PathBuf {
    Path::new(env!("CARGO_MANIFEST_DIR")).join("../../examples")
}

/// The files of the folder with an extension, by name.
pub fn files_with(extension: &str) -> Vec<PathBuf> {
    let entries = std::fs::read_dir(folder()).expect("the folder examples/");
    let paths = entries.map(|entry| entry.expect("an entry of the folder").path());
    let mut files: Vec<PathBuf> = paths
        .filter(|path| path.extension() == Some(extension.as_ref()))
        .collect();
    files.sort();
    files
}

/// The three plans of the benchmark.
pub const BENCHMARK: [&str; 3] = [
    "mesh-28-nodes-69-events.plan",
    "mesh-64-nodes-19-events.plan",
    "halves-128-events.plan",
];

/// The example files that are made here.
pub fn examples() -> Vec<Example> {
    let example = |name, plan| Example {
        name,
        bytes: layout(&plan),
    };
    let rising = Plan {
        events: vec![event(1_000, 0, 1), event(2_000, 0, 2)],
        ..triangle()
    };
    vec![
        example("triangle.plan", triangle()),
        example("ring-of-six.plan", ring_of_six()),
        example("shared-duct.plan", shared_duct()),
        example("refused-rising-probability.plan", rising),
        example(BENCHMARK[0], mesh_28()),
        example(BENCHMARK[1], mesh_64()),
        example(BENCHMARK[2], halves()),
    ]
}

fn event(probability: u64, nodes: u64, links: u128) -> Event {
    Event {
        probability,
        nodes,
        links,
    }
}

/// A link, the smaller end first.
fn link(a: usize, b: usize) -> (usize, usize) {
    (a.min(b), a.max(b))
}

/// A ring over all nodes.
fn ring(nodes: usize) -> Vec<(usize, usize)> {
    (0..nodes).map(|i| link(i, (i + 1) % nodes)).collect()
}

/// The triangle of document 01.
pub fn triangle() -> Plan {
    Plan {
        nodes: 3,
        links: vec![(0, 1), (0, 2), (1, 2)],
        events: (0..3).map(|i| event(1, 0, 1 << i)).collect(),
        threshold: 1,
        cap: 100,
    }
}

/// Six stations in a ring: each link fails once in a thousand, each station once in ten thousand.
pub fn ring_of_six() -> Plan {
    let links = (0..6).map(|i| event(1_000_000, 0, 1 << i));
    let stations = (0..6).map(|i| event(100_000, 1 << i, 0));
    Plan {
        nodes: 6,
        links: ring(6),
        events: links.chain(stations).collect(),
        threshold: 1_000_000,
        cap: 10_000,
    }
}

/// Four stations; the two links out of station 0 share a duct, so one cut takes both.
pub fn shared_duct() -> Plan {
    Plan {
        nodes: 4,
        links: vec![(0, 1), (0, 2), (1, 2), (1, 3), (2, 3)],
        events: vec![
            event(2_000_000, 0, 0b00011),
            event(500_000, 0, 0b00100),
            event(500_000, 0, 0b01000),
            event(500_000, 0, 0b10000),
            event(20_000, 0b0010, 0),
        ],
        threshold: 1,
        cap: 100,
    }
}

/// Events in the order that a plan asks for.
fn by_falling_probability(mut events: Vec<Event>) -> Vec<Event> {
    events.sort_by_key(|event| CERTAIN - event.probability);
    events
}

/// 28 nodes in a ring with 13 chords; an event for each node and each link.
pub fn mesh_28() -> Plan {
    let chords = (0..13).map(|i| link(2 * i, (2 * i + 9) % 28));
    let links: Vec<_> = ring(28).into_iter().chain(chords).collect();
    let node_event = |i: u64| event(100_000 + 10_000 * (i * 11 % 28), 1 << i, 0);
    let link_event = |i: u64| event(200_000 + 20_000 * (i * 17 % 41), 0, 1 << i);
    let events = (0..28).map(node_event).chain((0..41).map(link_event));
    Plan {
        nodes: 28,
        links,
        events: by_falling_probability(events.collect()),
        threshold: 100_000_000,
        cap: LARGEST_CAP,
    }
}

/// 64 nodes on an 8 by 8 grid that closes on itself; 13 ducts of several links and 6 stations fail.
pub fn mesh_64() -> Plan {
    let right = |i: usize| link(i, i / 8 * 8 + (i + 1) % 8);
    let down = |i: usize| link(i, (i + 8) % 64);
    let links = (0..64).map(right).chain((0..64).map(down));
    let duct = |i: u64| {
        let members = (0..5).fold(0, |set, j| set | 1u128 << ((i * 37 + j * 23) % 128));
        event(300_000_000 - 4_000_000 * i, 0, members)
    };
    let station = |i: u64| event(240_000_000 - 5_000_000 * i, 1 << (i * 13 % 64), 0);
    let events = (0..13).map(duct).chain((0..6).map(station));
    Plan {
        nodes: 64,
        links: links.collect(),
        events: by_falling_probability(events.collect()),
        threshold: 1,
        cap: LARGEST_CAP,
    }
}

/// 128 events of one half on a small ring: no scenario is relevant, and the walk ends at the cap.
pub fn halves() -> Plan {
    let events = (0..128).map(|i| event(CERTAIN / 2, 0, 1 << (i % 6)));
    Plan {
        nodes: 6,
        links: ring(6),
        events: events.collect(),
        threshold: 1,
        cap: LARGEST_CAP,
    }
}

/// The longest plan, of 50,068 bytes: every event names every element. It is no example file.
pub fn longest() -> Plan {
    Plan {
        nodes: 64,
        links: vec![(62, 63); 128],
        events: vec![event(5, u64::MAX, u128::MAX); 128],
        threshold: 1,
        cap: 1_000,
    }
}

/// The longest plan's file with the last event's count of members set to 255, and some zero bytes after it.
pub fn longest_with_last_count_255(more: usize) -> Vec<u8> {
    let mut bytes = layout(&longest());
    let last_count = bytes.len() - 2 * 192 - 1;
    bytes[last_count] = 255;
    bytes.resize(bytes.len() + more, 0);
    bytes
}

#[cfg(test)]
mod tests {
    use account::calls::check;
    use account::walk::walk;

    use super::*;

    #[test]
    fn each_file_is_what_its_name_says() {
        for example in examples() {
            let refused = example.name.starts_with("refused");
            assert_eq!(check(&example.bytes), if refused { 9 } else { 0 });
        }
    }

    #[test]
    fn the_folder_has_these_bytes() {
        for example in examples() {
            let bytes = std::fs::read(folder().join(example.name));
            assert_eq!(bytes.ok(), Some(example.bytes), "{}", example.name);
        }
    }

    #[test]
    fn the_benchmark_walks_as_long_as_was_asked() {
        let walk_28 = walk(&mesh_28());
        assert!(walk_28.complete && (300_000..=600_000).contains(&walk_28.ends));
        let walk_64 = walk(&mesh_64());
        assert!(walk_64.complete && walk_64.examined.len() == 524_288);
        let walk_halves = walk(&halves());
        assert!(!walk_halves.complete && walk_halves.examined.is_empty());
    }
}
