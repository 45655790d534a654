//! The equipment sheet of request U2: its refusals in order, its events, and its bytes.

use std::cmp::Reverse;

use crate::plan::Event;
use crate::refusal::{demand, Refusal};
use crate::source::{
    little_endian, member_bytes, parse_members, test_mark, Counts, Source, VERSION,
};
use crate::{CERTAIN, MOST_EVENTS, MOST_LINKS, MOST_NODES};

const MARK: &[u8] = b"EQS";

/// A line of equipment: failures in 10^9 hours, hours to repair, length (1 for a box, kilometres for cable), and the
/// elements that fail with it. Element i is bit i.
#[derive(Clone, Copy, Debug, PartialEq, Eq)]
pub struct Line {
    pub fit: u32,
    pub hours: u32,
    pub length: u32,
    pub nodes: u64,
    pub links: u128,
}

/// A sheet: how many nodes and links its members are taken from, and its lines in order.
#[derive(Clone, Debug, PartialEq, Eq)]
pub struct Sheet {
    pub nodes: usize,
    pub links: usize,
    pub lines: Vec<Line>,
}

impl Line {
    /// FIT × hours × length, below 2^96.
    pub fn product(&self) -> u128 {
        u128::from(self.fit) * u128::from(self.hours) * u128::from(self.length)
    }

    /// The event of a line that was not refused.
    fn event(&self) -> Event {
        Event {
            probability: u64::try_from(self.product()).expect("a product of at most 10^9"),
            nodes: self.nodes,
            links: self.links,
        }
    }
}

impl Sheet {
    /// The lines as events in falling probability, ties in sheet order.
    pub fn events(&self) -> Vec<Event> {
        let mut events: Vec<Event> = self.lines.iter().map(Line::event).collect();
        events.sort_by_key(|event| Reverse(event.probability));
        events
    }
}

/// The header: 1, then 2 to 4; the sheet without its lines, and how many they are.
fn parse_header(source: &mut Source) -> Result<(Sheet, u8), Refusal> {
    let bytes = source.take(8)?;
    test_mark(bytes, MARK)?;
    let (nodes, links) = (u64::from(bytes[5]), u64::from(bytes[6]));
    let counts = (1..=MOST_NODES).contains(&nodes) && links <= MOST_LINKS;
    demand(counts, Refusal::Count)?;
    let sheet = Sheet {
        nodes: nodes as usize,
        links: links as usize,
        lines: Vec::new(),
    };
    Ok((sheet, bytes[7]))
}

/// One line: 1, then each member, then 17.
fn parse_line(source: &mut Source, counts: Counts) -> Result<Line, Refusal> {
    let bytes = source.take(13)?;
    let number = |at: usize| little_endian(&bytes[at..at + 4]) as u32;
    let (nodes, links) = parse_members(source, counts, bytes[12])?;
    let line = Line {
        fit: number(0),
        hours: number(4),
        length: number(8),
        nodes,
        links,
    };
    demand(line.product() <= u128::from(CERTAIN), Refusal::Product)?;
    Ok(line)
}

/// The sheet of a file, or its first refusal: the header, each line, 11, then 18.
pub fn parse(bytes: &[u8]) -> Result<Sheet, Refusal> {
    let mut source = Source { rest: bytes };
    let (mut sheet, lines) = parse_header(&mut source)?;
    let counts = Counts {
        nodes: sheet.nodes,
        links: sheet.links,
    };
    for _ in 0..lines {
        sheet.lines.push(parse_line(&mut source, counts)?);
    }
    demand(source.rest.is_empty(), Refusal::Trailing)?;
    demand(u64::from(lines) <= MOST_EVENTS, Refusal::Lines)?;
    Ok(sheet)
}

/// Exactly the bytes of a sheet of at most 255 lines.
pub fn layout(sheet: &Sheet) -> Vec<u8> {
    let lines = u8::try_from(sheet.lines.len()).expect("at most 255 lines");
    let mut bytes = MARK.to_vec();
    bytes.extend(VERSION.to_le_bytes());
    bytes.extend([sheet.nodes as u8, sheet.links as u8, lines]);
    for line in &sheet.lines {
        for number in [line.fit, line.hours, line.length] {
            bytes.extend(number.to_le_bytes());
        }
        bytes.extend(member_bytes(line.nodes, line.links));
    }
    bytes
}
