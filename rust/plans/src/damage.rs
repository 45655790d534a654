//! Damage to files and to lent lists: fields at and past their limits, bytes changed, added and taken away.

use account::file::layout;
use account::{Plan, CERTAIN, EVENT_WORDS, LARGEST_CAP, WHOLE};

use crate::lists::Lists;
use crate::rng::Rng;
use crate::valid::random_plan;

/// Values around the limits of one byte of a file.
pub(crate) const BYTES: [u8; 11] = [0, 1, 2, 63, 64, 65, 127, 128, 129, 254, 255];

/// The header's size, and the place of its fields.
const HEADER: usize = 20;
const COUNTS: usize = 5;
const THRESHOLD: usize = 8;
const CAP: usize = 16;

/// A random file: one in four valid, one in forty of random bytes, the others damaged.
pub fn random_file(rng: &mut Rng) -> Vec<u8> {
    let plan = random_plan(rng);
    if rng.one_in(4) {
        return layout(&plan);
    }
    if rng.one_in(30) {
        let length = rng.below(60);
        return rng.bytes(length);
    }
    damaged_file(rng, &plan)
}

/// A plan's file with one to three damages.
pub fn damaged_file(rng: &mut Rng, plan: &Plan) -> Vec<u8> {
    let mut bytes = layout(plan);
    for _ in 0..rng.between(1, 3) {
        damage_file(rng, plan, &mut bytes);
    }
    bytes
}

/// Puts bytes at a place, as far as the file reaches.
pub(crate) fn put(bytes: &mut [u8], at: usize, value: &[u8]) {
    for (byte, &new) in bytes.iter_mut().skip(at).zip(value) {
        *byte = new;
    }
}

fn damage_file(rng: &mut Rng, plan: &Plan, bytes: &mut Vec<u8>) {
    match rng.below(12) {
        0 => put(bytes, rng.below(COUNTS), &[rng.pick(&BYTES)]),
        1 => put(bytes, COUNTS + rng.below(3), &[rng.pick(&BYTES)]),
        2 => put(bytes, THRESHOLD, &threshold(rng).to_le_bytes()),
        3 => put(bytes, CAP, &(cap(rng) as u32).to_le_bytes()),
        4 | 5 => damage_link(rng, plan, bytes),
        6..=8 => damage_event(rng, plan, bytes),
        9 => bytes.truncate(rng.below(bytes.len() + 1)),
        10 => {
            let more = rng.pick(&[1, 2, 5, 20, 300]);
            bytes.extend(rng.bytes(more));
        }
        _ => damage_bytes(rng, bytes),
    }
}

/// One byte changed, taken out or put in.
pub(crate) fn damage_bytes(rng: &mut Rng, bytes: &mut Vec<u8>) {
    if bytes.is_empty() {
        return;
    }
    let at = rng.below(bytes.len());
    match rng.below(4) {
        0 => bytes.insert(at, rng.bits() as u8),
        1 => drop(bytes.remove(at)),
        2 => bytes[at] = rng.bits() as u8,
        _ => bytes[at] ^= 1 << rng.below(8),
    }
}

fn damage_link(rng: &mut Rng, plan: &Plan, bytes: &mut [u8]) {
    if plan.links.is_empty() {
        return;
    }
    let at = HEADER + 2 * rng.below(plan.links.len());
    let nodes = plan.nodes as u8;
    let ends = [nodes, nodes - 1, 0, rng.bits() as u8, rng.pick(&BYTES)];
    put(bytes, at + rng.below(2), &[rng.pick(&ends)]);
}

/// Where each event starts in the file of a plan.
fn event_starts(plan: &Plan) -> Vec<usize> {
    let mut at = HEADER + 2 * plan.links.len();
    let mut start = |event: &account::Event| {
        let here = at;
        at += 5 + 2 * (event.nodes.count_ones() + event.links.count_ones()) as usize;
        here
    };
    plan.events.iter().map(&mut start).collect()
}

fn damage_event(rng: &mut Rng, plan: &Plan, bytes: &mut [u8]) {
    if plan.events.is_empty() {
        return;
    }
    let starts = event_starts(plan);
    let event = rng.below(starts.len());
    let start = starts[event];
    let members = bytes.get(start + 4).map_or(0, |&count| usize::from(count));
    let member = start + 5 + 2 * rng.below(members + 1);
    let counts = [plan.nodes as u8, plan.links.len() as u8, rng.pick(&BYTES)];
    match rng.below(5) {
        0 => put(bytes, start, &probability(rng).to_le_bytes()[..4]),
        1 => {
            let before = plan.events[event.saturating_sub(1)].probability;
            put(bytes, start, &(before as u32 + 1).to_le_bytes());
        }
        2 => put(bytes, start + 4, &[rng.pick(&BYTES)]),
        3 => put(bytes, member, &[rng.pick(&[0, 1, 2, 255])]),
        _ => put(bytes, member + 1, &[rng.pick(&counts)]),
    }
}

/// Numbers around the limits of the header and of a probability.
fn threshold(rng: &mut Rng) -> u64 {
    rng.pick(&[0, 1, WHOLE - 1, WHOLE, WHOLE + 1, u64::MAX])
}

fn cap(rng: &mut Rng) -> u64 {
    rng.pick(&[0, 1, 2, 30, LARGEST_CAP + 1, u64::from(u32::MAX)])
}

fn probability(rng: &mut Rng) -> u64 {
    rng.pick(&[0, 1, CERTAIN - 1, CERTAIN, CERTAIN + 1, u64::from(u32::MAX)])
}

/// A count of lent lists: around the limits of all counts, or far past them.
pub(crate) fn count(rng: &mut Rng) -> u64 {
    let past = [1 << 32, 1 << 61, 1 << 62, 1 << 63, u64::MAX];
    match rng.one_in(4) {
        true => rng.pick(&past),
        false => u64::from(rng.pick(&BYTES)),
    }
}

/// A plan's lists with one to three damages.
pub fn damaged_lists(rng: &mut Rng, plan: &Plan) -> Lists {
    let mut lists = Lists::of(plan);
    if rng.one_in(2) {
        lists = lists.with_spare(rng);
    }
    for _ in 0..rng.between(1, 3) {
        damage_lists(rng, &mut lists);
    }
    lists
}

fn damage_lists(rng: &mut Rng, lists: &mut Lists) {
    match rng.below(10) {
        0 => lists.header.nodes = count(rng),
        1 => lists.header.links = count(rng),
        2 => lists.header.events = count(rng),
        3 => lists.header.threshold = threshold(rng),
        4 => lists.header.cap = cap(rng) << rng.pick(&[0, 0, 0, 32]),
        5 => lists.links.truncate(rng.below(lists.links.len() + 1)),
        6 => lists.events.truncate(rng.below(lists.events.len() + 1)),
        7 => damage_end(rng, lists.header.nodes, &mut lists.links),
        _ => damage_event_list(rng, lists),
    }
}

/// One end of a link changed, if the list has one.
pub(crate) fn damage_end(rng: &mut Rng, nodes: u64, links: &mut [u8]) {
    let ends = [nodes as u8, 0, 63, 64, 255, rng.bits() as u8];
    if !links.is_empty() {
        let at = rng.below(links.len());
        links[at] = rng.pick(&ends);
    }
}

fn damage_event_list(rng: &mut Rng, lists: &mut Lists) {
    let Lists { header, events, .. } = lists;
    if events.is_empty() {
        return;
    }
    let at = rng.below(events.len());
    let nodes = 1u64.checked_shl(header.nodes as u32).unwrap_or(0);
    let link = header.links % 64;
    let large = [CERTAIN + 1, 1 << 32, u64::MAX];
    match at % EVENT_WORDS {
        0 if rng.one_in(3) => events[at] = rng.pick(&large),
        0 => events[at] = probability(rng),
        1 => events[at] |= nodes | rng.pick(&[0, 1 << 63]),
        _ => events[at] ^= 1 << rng.pick(&[link, 63, 0]),
    }
}
