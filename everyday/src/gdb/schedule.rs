//! Events that are added while the core is looked at. Each counts from the step that is next, so that what was played comes again
//! as it was.

use crate::events::{self, Events};

#[derive(Default)]
pub struct Schedule {
    parts: Vec<Part>,
}

struct Part {
    /// As it was asked for.
    words: String,
    events: Events,
    /// The steps for which it counts: from the first up to, not including, the second.
    from: u64,
    to: u64,
    /// The level, where it is held.
    held: u8,
}

impl Part {
    fn level(byte: u8, from: u64, to: u64) -> Part {
        let words = format!("hold {}", events::shown(byte));
        Part { words, events: Events::steady(from, to, byte), from, to, held: byte }
    }
}

impl Schedule {
    /// Events from step `from` on.
    pub fn add(&mut self, words: String, events: Events, from: u64) {
        self.parts.push(Part { words, events, from, to: u64::MAX, held: 0 });
    }

    /// A level from step `from` on.
    pub fn hold(&mut self, byte: u8, from: u64) {
        self.parts.push(Part::level(byte, from, u64::MAX));
    }

    /// Of the levels that are held, these no longer from step `at` on; which of them were.
    pub fn release(&mut self, byte: u8, at: u64) -> u8 {
        let held = |part: &Part| part.to > at && part.held & byte != 0;
        let released = self.parts.iter().filter(|part| held(part)).fold(0, |all, part| all | part.held & byte);
        // what else a part holds goes on, or begins, as it would have
        let others = self.parts.iter().filter(|part| held(part) && part.held & !byte != 0);
        let others: Vec<Part> = others.map(|part| Part::level(part.held & !byte, part.from.max(at), part.to)).collect();
        self.end(at, held);
        self.parts.extend(others);
        released
    }

    /// Nothing any more from step `at` on.
    pub fn clear(&mut self, at: u64) {
        self.end(at, |_| true);
    }

    fn end(&mut self, at: u64, ends: impl Fn(&Part) -> bool) {
        for part in self.parts.iter_mut().filter(|part| ends(part)) {
            part.to = part.to.min(at);
        }
        self.parts.retain(|part| part.from < part.to);
    }

    /// The bytes of `steps` steps from `start` on, without zeros at the end.
    pub fn list(&self, start: u64, steps: u32, list: &mut Vec<u8>) {
        list.clear();
        let mut own = Vec::new();
        for part in &self.parts {
            let (from, to) = (part.from.max(start), part.to.min(start.saturating_add(steps.into())));
            if from < to {
                part.events.list(from, (to - from) as u32, &mut own);
                join(list, (from - start) as usize, &own);
            }
        }
    }

    /// The byte of a step.
    pub fn byte(&self, step: u64) -> u8 {
        let mut list = Vec::new();
        self.list(step, 1, &mut list);
        list.first().copied().unwrap_or(0)
    }

    /// What counts at step `at` or later, as it was asked for.
    pub fn from(&self, at: u64) -> impl Iterator<Item = String> + '_ {
        let later = self.parts.iter().filter(move |part| part.to > at);
        later.map(|part| match (part.from, part.to) {
            (0, u64::MAX) => part.words.clone(),
            (from, u64::MAX) => format!("{}, from step {from} on", part.words),
            (from, to) => format!("{}, from step {from} to step {}", part.words, to - 1),
        })
    }
}

fn join(list: &mut Vec<u8>, at: usize, bytes: &[u8]) {
    list.resize(list.len().max(at + bytes.len()), 0);
    list[at..].iter_mut().zip(bytes).for_each(|(to, byte)| *to |= byte);
}

#[cfg(test)]
mod tests {
    use super::*;

    fn list(schedule: &Schedule, start: u64, steps: u32) -> Vec<u8> {
        let mut list = Vec::new();
        schedule.list(start, steps, &mut list);
        list
    }

    fn line(text: &str) -> Events {
        Events::read(&[("text".into(), text.into())]).unwrap()
    }

    #[test]
    fn what_is_added_counts_from_then_on() {
        let mut schedule = Schedule::default();
        schedule.add("every 2 timer0".into(), line("every 2 timer0"), 0);
        schedule.add("every 3 external".into(), line("every 3 external"), 4);
        assert_eq!(list(&schedule, 0, 10), [0, 0, 4, 0, 4, 0, 5, 0, 4, 1]);
        assert_eq!(list(&schedule, 5, 2), [0, 5]);
        schedule.clear(6);
        assert_eq!(list(&schedule, 0, 10), [0, 0, 4, 0, 4]);
        assert_eq!(schedule.from(6).count(), 0);
    }

    #[test]
    fn levels_are_held_and_released() {
        let mut schedule = Schedule::default();
        schedule.hold(5, 2);
        assert_eq!(schedule.release(1, 4), 1);
        assert_eq!(list(&schedule, 0, 6), [0, 0, 5, 5, 4, 4]);
        assert_eq!(schedule.release(1, 5), 0, "it is held no more");
        assert_eq!(schedule.release(63, 3), 5, "both, from an earlier step on");
        assert_eq!(list(&schedule, 0, 6), [0, 0, 5]);
        assert_eq!(schedule.byte(2), 5);
        schedule.clear(0);
        schedule.hold(5, 4);
        assert_eq!(schedule.release(1, 2), 1, "before it is held");
        assert_eq!(list(&schedule, 0, 6), [0, 0, 0, 0, 4, 4], "the other begins where it would have");
        assert_eq!(schedule.byte(u64::MAX), 0);
    }
}
