//! What plan files and equipment sheets have in common: bytes still to be read, the mark and the version, members.

use crate::refusal::{demand, Refusal};

/// The version of both files.
pub const VERSION: u16 = 1;

/// The bytes that are still to be read.
pub struct Source<'a> {
    pub rest: &'a [u8],
}

impl<'a> Source<'a> {
    /// The next bytes, or 1 where they end before.
    pub fn take(&mut self, count: usize) -> Result<&'a [u8], Refusal> {
        demand(count <= self.rest.len(), Refusal::Truncated)?;
        let (taken, rest) = self.rest.split_at(count);
        self.rest = rest;
        Ok(taken)
    }
}

/// A little-endian number.
pub fn little_endian(bytes: &[u8]) -> u64 {
    bytes
        .iter()
        .rev()
        .fold(0, |sum, &byte| sum << 8 | u64::from(byte))
}

/// The first five bytes of a header, the mark and the version: 2, then 3.
pub fn test_mark(header: &[u8], mark: &[u8]) -> Result<(), Refusal> {
    demand(&header[0..3] == mark, Refusal::Mark)?;
    let version = little_endian(&header[3..5]);
    demand(version == u64::from(VERSION), Refusal::Version)
}

/// The counts of nodes and links that members are tested against.
#[derive(Clone, Copy)]
pub struct Counts {
    pub nodes: usize,
    pub links: usize,
}

/// One member: 1, then 10. Members rise as pairs of kind and number; `None` stands before all of them.
fn parse_member(
    source: &mut Source,
    counts: Counts,
    before: Option<(u8, u8)>,
) -> Result<(u8, u8), Refusal> {
    let bytes = source.take(2)?;
    let member = (bytes[0], bytes[1]);
    let count = match member.0 {
        0 => counts.nodes,
        1 => counts.links,
        _ => 0,
    };
    demand(usize::from(member.1) < count, Refusal::Member)?;
    demand(before < Some(member), Refusal::Member)?;
    Ok(member)
}

/// So many members, as a set of nodes and a set of links.
pub fn parse_members(
    source: &mut Source,
    counts: Counts,
    number: u8,
) -> Result<(u64, u128), Refusal> {
    let (mut nodes, mut links) = (0, 0);
    let mut before = None;
    for _ in 0..number {
        let member = parse_member(source, counts, before)?;
        match member {
            (0, node) => nodes |= 1u64 << node,
            (_, link) => links |= 1u128 << link,
        }
        before = Some(member);
    }
    Ok((nodes, links))
}

/// The count of members and their bytes, nodes before links, each by number.
pub fn member_bytes(nodes: u64, links: u128) -> Vec<u8> {
    let node_members = (0..64u8).filter(|&node| nodes >> node & 1 == 1);
    let link_members = (0..128u8).filter(|&link| links >> link & 1 == 1);
    let mut bytes = vec![(nodes.count_ones() + links.count_ones()) as u8];
    bytes.extend(node_members.flat_map(|node| [0, node]));
    bytes.extend(link_members.flat_map(|link| [1, link]));
    bytes
}
