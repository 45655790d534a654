//! Lines of equipment: their numbers, and the events of a text by way of one sheet.
//!
//! The proved reader of sheets gives the events. Names come from the order that is worked out here; it is compared with
//! the proved one.

use std::cmp::Reverse;

use account::sheet::{layout, Line as SheetLine, Sheet};
use account::{Event, CERTAIN};
use conformance::proved::SheetEvents;

use crate::line::{Fault, Line};
use crate::named::{members, Named};
use crate::refused::sheet_reason;

/// An event of a text as an entry of a sheet: its FIT, hours and length, and its line in the text.
pub struct Entry {
    pub numbers: [u32; 3],
    pub line: usize,
}

/// FIT, hours to repair and length as a line says them, each of 32 bits.
pub fn numbers(line: &Line, words: [&str; 3]) -> Result<[u32; 3], Fault> {
    let most = u64::from(u32::MAX);
    let number = |word, what| line.number_within(word, what, 0, most);
    let fit = number(words[0], "FIT")?;
    let hours = number(words[1], "the hours to repair")?;
    let length = number(words[2], "the length")?;
    Ok([fit, hours, length].map(|number| number as u32))
}

/// FIT times hours times length, at most 10^9.
pub fn probability(line: &Line, numbers: [u32; 3]) -> Result<u64, Fault> {
    let product: u128 = numbers.into_iter().map(u128::from).product();
    if product <= u128::from(CERTAIN) {
        return Ok(product as u64);
    }
    let expected = format!(
        "FIT * hours * length of at most {CERTAIN}, with failures in 10^9 hours and cable in km"
    );
    let [fit, hours, length] = numbers;
    Err(line.fault(expected, format!("{fit} * {hours} * {length} = {product}")))
}

/// The sheet of a plan's events, in their order, with an entry for each.
pub fn sheet_of(named: &Named, entries: &[Entry]) -> Sheet {
    let line = |(event, entry): (&Event, &Entry)| {
        let [fit, hours, length] = entry.numbers;
        SheetLine {
            fit,
            hours,
            length,
            nodes: event.nodes,
            links: event.links,
        }
    };
    Sheet {
        nodes: named.nodes.len(),
        links: named.links.len(),
        lines: named.plan.events.iter().zip(entries).map(line).collect(),
    }
}

/// The places of events by falling probability, equal ones in their order.
fn order(events: &[Event]) -> Vec<usize> {
    let mut order: Vec<usize> = (0..events.len()).collect();
    order.sort_by_key(|&i| Reverse(events[i].probability));
    order
}

/// The reader of equipment sheets.
type Reader = fn(&[u8]) -> Result<SheetEvents, u32>;

/// A plan whose events stand in the order of a text, with its events by way of one sheet and its reader.
pub fn by_sheet(mut named: Named, entries: &[Entry], read: Reader) -> Result<Named, Fault> {
    let sheet = sheet_of(&named, entries);
    let order = order(&named.plan.events);
    named.events = order.iter().map(|&i| named.events[i].clone()).collect();
    named.plan.events = order.iter().map(|&i| named.plan.events[i]).collect();
    let lines: Vec<usize> = order.iter().map(|&i| entries[i].line).collect();
    match read(&layout(&sheet)) {
        Ok(proved) => agree(&named, &proved.events, &lines).map(|()| named),
        Err(number) => Err(Fault {
            line: lines.into_iter().max().unwrap_or(1),
            expected: "a sheet that the proved reader takes".to_string(),
            found: format!("refused {number}, {}", sheet_reason(number)),
        }),
    }
}

/// That the proved events are those that got the names, or the first at which they differ. The lines are those of the
/// events in the text.
fn agree(named: &Named, proved: &[Event], lines: &[usize]) -> Result<(), Fault> {
    let own = &named.plan.events;
    let differs = |&i: &usize| own.get(i) != proved.get(i);
    let Some(i) = (0..own.len().max(proved.len())).find(differs) else {
        return Ok(());
    };
    let shown = |event: Option<&Event>| match event {
        Some(event) => {
            let sets = (event.nodes, event.links);
            let members = members(sets, &named.nodes, &named.links).join(" ");
            format!("q {} of `{members}`", event.probability)
        }
        None => "nothing".to_string(),
    };
    let name = named.events.get(i).map_or("", String::as_str);
    Err(Fault {
        line: lines.get(i).or(lines.last()).copied().unwrap_or(1),
        expected: format!("event {i} of the proved list, {}", shown(proved.get(i))),
        found: format!(
            "`{name}`, {}, in the order of planner: a fault of planner, not of the text",
            shown(own.get(i))
        ),
    })
}

#[cfg(test)]
mod tests {
    use account::{Event, Plan};
    use conformance::proved::{read_sheet, SheetEvents};

    use super::{by_sheet, Entry, Named};

    /// Two nodes and three events on lines 2, 3 and 5 of a text.
    fn text() -> (Named, Vec<Entry>) {
        let event = |probability, nodes| Event {
            probability,
            nodes,
            links: 0,
        };
        let plan = Plan {
            nodes: 2,
            links: vec![],
            events: vec![event(6, 1), event(7, 3), event(6, 2)],
            threshold: 1,
            cap: 1,
        };
        let entries = [(2, [2, 1, 3]), (3, [7, 1, 1]), (5, [6, 1, 1])];
        let entries = entries.map(|(line, numbers)| Entry { numbers, line });
        (Named::by_number(plan), entries.into())
    }

    /// The names of the events by a reader that does something to what the proved one gives, or the fault.
    fn names(read: fn(&[u8]) -> Result<SheetEvents, u32>) -> Result<Vec<String>, String> {
        let (named, entries) = text();
        let named = by_sheet(named, &entries, read).map_err(|fault| fault.to_string());
        named.map(|named| named.events)
    }

    fn changed(bytes: &[u8], change: fn(&mut Vec<Event>)) -> Result<SheetEvents, u32> {
        let mut sheet = read_sheet(bytes)?;
        change(&mut sheet.events);
        Ok(sheet)
    }

    #[test]
    fn equal_ones_keep_their_order() {
        let order = ["e1", "e0", "e2"].map(str::to_string).to_vec();
        assert_eq!(names(read_sheet), Ok(order));
    }

    #[test]
    fn a_proved_list_that_differs_is_told() {
        let fault = |line, event, proved, own| {
            let expected = format!("expected event {event} of the proved list, {proved}");
            let end = "in the order of planner: a fault of planner, not of the text";
            Err(format!("line {line}: {expected}; found {own}, {end}"))
        };
        let exchanged = names(|bytes| changed(bytes, |events| events.swap(1, 2)));
        let told = fault(2, 1, "q 6 of `n1`", "`e0`, q 6 of `n0`");
        assert_eq!(exchanged, told);
        let other = names(|bytes| changed(bytes, |events| events[2].probability = 5));
        assert_eq!(other, fault(5, 2, "q 5 of `n1`", "`e2`, q 6 of `n1`"));
        let fewer = names(|bytes| changed(bytes, |events| events.truncate(2)));
        assert_eq!(fewer, fault(5, 2, "nothing", "`e2`, q 6 of `n1`"));
        let more = names(|bytes| changed(bytes, |events| events.push(events[0])));
        assert_eq!(more, fault(5, 3, "q 7 of `n0 n1`", "``, nothing"));
    }

    #[test]
    fn a_sheet_that_is_refused_is_told() {
        let refused = "refused 11, bytes are left after the last line";
        let told =
            format!("line 5: expected a sheet that the proved reader takes; found {refused}");
        assert_eq!(names(|_| Err(11)), Err(told));
    }
}
