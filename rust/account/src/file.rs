//! The plan file: its reader with the refusals 1 to 11 in order, and its bytes.

use crate::plan::{Event, Header, Plan};
use crate::refusal::{demand, Refusal};
use crate::source::{
    little_endian, member_bytes, parse_members, test_mark, Counts, Source, VERSION,
};

const MARK: &[u8] = b"RSG";

/// The header: 1, then 2 to 6.
fn parse_header(source: &mut Source) -> Result<Header, Refusal> {
    let bytes = source.take(20)?;
    test_mark(bytes, MARK)?;
    let header = Header {
        nodes: u64::from(bytes[5]),
        links: u64::from(bytes[6]),
        events: u64::from(bytes[7]),
        threshold: little_endian(&bytes[8..16]),
        cap: little_endian(&bytes[16..20]),
    };
    header.test()?;
    Ok(header)
}

/// One event: 1, 8, 9, then each member.
fn parse_event(source: &mut Source, plan: &Plan) -> Result<Event, Refusal> {
    let bytes = source.take(5)?;
    let probability = little_endian(&bytes[0..4]);
    plan.test_probability(probability)?;
    let counts = Counts {
        nodes: plan.nodes,
        links: plan.links.len(),
    };
    let (nodes, links) = parse_members(source, counts, bytes[4])?;
    Ok(Event {
        probability,
        nodes,
        links,
    })
}

/// The plan of a file, or the first refusal of 1 to 11.
pub fn parse(bytes: &[u8]) -> Result<Plan, Refusal> {
    let mut source = Source { rest: bytes };
    let header = parse_header(&mut source)?;
    let mut plan = Plan::empty(&header);
    for _ in 0..header.links {
        let ends = source.take(2)?;
        plan.push_link(ends[0], ends[1])?;
    }
    for _ in 0..header.events {
        let event = parse_event(&mut source, &plan)?;
        plan.events.push(event);
    }
    demand(source.rest.is_empty(), Refusal::Trailing)?;
    Ok(plan)
}

/// Exactly the bytes of a plan's file.
pub fn layout(plan: &Plan) -> Vec<u8> {
    let mut bytes = MARK.to_vec();
    bytes.extend(VERSION.to_le_bytes());
    bytes.extend([
        plan.nodes as u8,
        plan.links.len() as u8,
        plan.events.len() as u8,
    ]);
    bytes.extend(plan.threshold.to_le_bytes());
    bytes.extend((plan.cap as u32).to_le_bytes());
    bytes.extend(plan.link_bytes());
    for event in &plan.events {
        bytes.extend((event.probability as u32).to_le_bytes());
        bytes.extend(member_bytes(event.nodes, event.links));
    }
    bytes
}
