//! The calls on lent memory: a refusal leaves it unchanged, and entries past the last one stay untouched.

use crate::bounds::{self, Bounds, Outcome};
use crate::file;
use crate::plan::{Header, Lent, Plan};
use crate::refusal::{demand, number, Refusal};
use crate::sheet;
use crate::topology::Out;
use crate::EVENT_WORDS;

/// The check of a file: the refusal's number, or 0.
pub fn check(bytes: &[u8]) -> u32 {
    number(&file::parse(bytes))
}

/// The reader: 1 to 11, then 12 for a list that is too short.
pub fn read(bytes: &[u8], links: &mut [u8], events: &mut [u64]) -> Result<Header, Refusal> {
    let plan = file::parse(bytes)?;
    let (link_bytes, event_words) = (plan.link_bytes(), plan.event_words());
    demand(links.len() >= link_bytes.len(), Refusal::Short)?;
    demand(
        events.len() / EVENT_WORDS >= plan.events.len(),
        Refusal::Short,
    )?;
    links[..link_bytes.len()].copy_from_slice(&link_bytes);
    events[..event_words.len()].copy_from_slice(&event_words);
    Ok(plan.header())
}

/// The check of an equipment sheet: the refusal's number, or 0.
pub fn check_sheet(bytes: &[u8]) -> u32 {
    number(&sheet::parse(bytes))
}

/// The reader of an equipment sheet: its refusals, then 12 for a list with room for fewer events than lines. It
/// returns the counts of nodes, links and lines.
pub fn read_sheet(bytes: &[u8], events: &mut [u64]) -> Result<[u64; 3], Refusal> {
    let sheet = sheet::parse(bytes)?;
    let lines = sheet.lines.len();
    demand(events.len() / EVENT_WORDS >= lines, Refusal::Short)?;
    for (words, event) in events.chunks_exact_mut(EVENT_WORDS).zip(sheet.events()) {
        words.copy_from_slice(&event.words());
    }
    Ok([sheet.nodes as u64, sheet.links as u64, lines as u64])
}

/// The writer: the tests of the lists, then 12 for the output. It returns how many bytes it laid down.
pub fn write(lent: &Lent, out: &mut [u8]) -> Result<usize, Refusal> {
    let bytes = file::layout(&lent.plan()?);
    demand(out.len() >= bytes.len(), Refusal::Short)?;
    out[..bytes.len()].copy_from_slice(&bytes);
    Ok(bytes.len())
}

/// The test of the two lists of bounds: 12 where one is shorter than so many blocks, each as long as the number of pairs.
pub fn test_room(plan: &Plan, blocks: usize, lower: &[u64], upper: &[u64]) -> Result<(), Refusal> {
    let room = blocks * (plan.nodes * (plan.nodes - 1) / 2);
    demand(lower.len() >= room && upper.len() >= room, Refusal::Short)
}

/// The run over all pairs into two lists that have room for them, with this out in every scenario.
pub fn run_into(plan: &Plan, out: Out, lower: &mut [u64], upper: &mut [u64]) -> Outcome {
    let (outcome, bounds) = bounds::run(plan, out);
    for (i, bound) in bounds.iter().enumerate() {
        lower[i] = bound.lower;
        upper[i] = bound.upper;
    }
    outcome
}

/// The run: the tests of the lists, then 12 for the two lists of bounds.
pub fn run(lent: &Lent, lower: &mut [u64], upper: &mut [u64]) -> Result<Outcome, Refusal> {
    let plan = lent.plan()?;
    test_room(&plan, 1, lower, upper)?;
    Ok(run_into(&plan, Out::NOTHING, lower, upper))
}

/// The test of a pair: 13.
pub fn test_pair(nodes: usize, v: u64, w: u64) -> Result<(usize, usize), Refusal> {
    demand(v < w && w < nodes as u64, Refusal::Pair)?;
    Ok((v as usize, w as usize))
}

/// The bounds of one pair: the tests of the lists, then 13.
pub fn pair(lent: &Lent, v: u64, w: u64) -> Result<Bounds, Refusal> {
    let plan = lent.plan()?;
    let (v, w) = test_pair(plan.nodes, v, w)?;
    Ok(bounds::pair(&plan, v, w))
}

/// The host's call: 1 to 11, 12 for a buffer under sixteen bytes, 13; lower, then upper, eight bytes each.
pub fn host_pair(bytes: &[u8], v: u32, w: u32, out: &mut [u8]) -> Result<(), Refusal> {
    let plan = file::parse(bytes)?;
    demand(out.len() >= 16, Refusal::Short)?;
    let (v, w) = test_pair(plan.nodes, u64::from(v), u64::from(w))?;
    let bounds = bounds::pair(&plan, v, w);
    out[..8].copy_from_slice(&bounds.lower.to_le_bytes());
    out[8..16].copy_from_slice(&bounds.upper.to_le_bytes());
    Ok(())
}
