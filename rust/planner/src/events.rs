//! Lines of events and of equipment.

use account::{Event, CERTAIN, MOST_EVENTS};

use crate::equipment::{numbers, probability, Entry};
use crate::line::{Fault, Line};
use crate::text::{room, Draft};

impl Draft {
    pub fn take_event(&mut self, line: &Line) -> Result<(), Fault> {
        let [name, q, ref members @ ..] = line.words[..] else {
            return Err(line.wrong_words("event NAME Q MEMBER.."));
        };
        self.name_event(line, name)?;
        let q = self.q(line, q)?;
        self.push_event(line, name, [q as u32, 1, 1], members)
    }

    pub fn take_equipment(&mut self, line: &Line) -> Result<(), Fault> {
        let [name, fit, hours, length, ref members @ ..] = line.words[..] else {
            return Err(line.wrong_words("equipment NAME FIT HOURS LENGTH MEMBER.."));
        };
        self.name_event(line, name)?;
        let numbers = numbers(line, [fit, hours, length])?;
        self.push_event(line, name, numbers, members)
    }

    /// Gives a name to the next event, where a plan has room for it.
    fn name_event(&mut self, line: &Line, name: &str) -> Result<(), Fault> {
        room(line, self.named.events.len(), MOST_EVENTS, "events")?;
        self.names.give_event(line, name)
    }

    /// The q of the next event: in a text without equipment no larger than that of the event before.
    fn q(&self, line: &Line, word: &str) -> Result<u64, Fault> {
        let q = line.number_within(word, "q in units of 10^-9", 0, CERTAIN)?;
        match (self.named.plan.events.last(), self.named.events.last()) {
            (Some(before), Some(name)) if before.probability < q && !self.has_equipment => {
                let most = before.probability;
                let expected = format!("q of at most {most}, that of `{name}`: q never rises");
                Err(line.fault(expected, format!("`{word}`")))
            }
            _ => Ok(q),
        }
    }

    /// One event more, with its FIT, hours and length.
    fn push_event(
        &mut self,
        line: &Line,
        name: &str,
        numbers: [u32; 3],
        members: &[&str],
    ) -> Result<(), Fault> {
        let probability = probability(line, numbers)?;
        let (nodes, links) = self.names.members(line, members)?;
        self.named.plan.events.push(Event {
            probability,
            nodes,
            links,
        });
        self.named.events.push(name.to_string());
        self.entries.push(Entry {
            numbers,
            line: line.number,
        });
        Ok(())
    }
}
