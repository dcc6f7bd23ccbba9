//! The way of a core: where it is and where it was. A run is determined by the core and its events, so what was left behind is
//! found again by playing on from an earlier copy.

use super::schedule::Schedule;
use crate::capture::Capture;
use crate::library::{Refusal, MOST};
use crate::registers::IAR;
use crate::step::{self, Step};

/// A core, and how many steps it has taken: the number of its next step.
#[derive(Clone)]
pub struct Place {
    pub capture: Capture,
    pub at: u64,
}

impl Place {
    pub fn iar(&self) -> u32 {
        self.capture.state.get(IAR)
    }

    /// Up to `most` steps, fewer if the core halts or, after one at the earliest, comes to a stop; how many it took.
    pub fn run(&mut self, schedule: &Schedule, stops: Option<&[u8]>, most: u64) -> Result<u64, Refusal> {
        let most = most.min(MOST as u64) as u32;
        let mut list = Vec::new();
        schedule.list(self.at, most, &mut list);
        let Capture { profile, state, memory } = &mut self.capture;
        let answer = match stops {
            Some(stops) => profile.run_until(state, memory, &list, stops, most)?,
            None => profile.run_predecoded(state, memory, &list, most)?,
        };
        self.at += u64::from(answer.count);
        Ok(answer.count.into())
    }

    /// One step, and all that is told of it.
    pub fn step(&mut self, schedule: &Schedule) -> Result<Step, Refusal> {
        let step = step::take(&mut self.capture, self.at, schedule.byte(self.at))?;
        self.at += 1;
        Ok(step)
    }

    fn run_to(&mut self, schedule: &Schedule, at: u64) -> Result<(), Refusal> {
        while self.at < at && self.run(schedule, None, at - self.at)? > 0 {}
        Ok(())
    }
}

pub struct History {
    pub now: Place,
    pub schedule: Schedule,
    /// Copies by their steps; the first is where the history begins.
    kept: Vec<Kept>,
    /// Copies at most, and steps from one to the next.
    most: usize,
    every: u64,
    /// Something was written since the last step.
    written: bool,
    /// A copy shortly before where the last way back led, for the next one.
    near: Option<Place>,
}

struct Kept {
    place: Place,
    /// It was written to here, so that no steps lead here from an earlier copy.
    written: bool,
}

/// Bytes of memory in all copies, and the bounds of their number: beyond it every other one goes.
const MOST_COPIED: usize = 256 << 20;
const FEWEST: usize = 128;
const MOST_COPIES: usize = 16_384;
/// Steps from one copy to the next at first: played again in some hundredths of a second.
const EVERY: u64 = 4 << 20;
/// Steps before the end of a way back at which `near` is.
const NEAR: u64 = 4096;

impl History {
    pub fn new(capture: Capture, schedule: Schedule) -> History {
        let now = Place { capture, at: 0 };
        let kept = vec![Kept { place: now.clone(), written: false }];
        let most = (MOST_COPIED / now.capture.memory.len()).clamp(FEWEST, MOST_COPIES);
        History { now, schedule, kept, most, every: EVERY, written: false, near: None }
    }

    /// The first step that can be gone back to.
    pub fn begin(&self) -> u64 {
        self.kept.first().map_or(self.now.at, |kept| kept.place.at)
    }

    /// Copies of earlier steps, the last first.
    pub fn copies(&self) -> impl Iterator<Item = &Place> {
        self.kept.iter().rev().map(|kept| &kept.place).filter(|place| place.at < self.now.at)
    }

    /// As `Place::run`.
    pub fn run(&mut self, stops: Option<&[u8]>, most: u64) -> Result<u64, Refusal> {
        self.keep();
        self.now.run(&self.schedule, stops, most)
    }

    /// To be said after registers or memory were written: what came later comes no more.
    pub fn was_written(&mut self) {
        self.kept.retain(|kept| kept.place.at < self.now.at);
        self.near = None;
        self.written = true;
    }

    /// To be said after the schedule was changed from the next step on.
    pub fn was_scheduled(&mut self) {
        self.kept.retain(|kept| kept.place.at <= self.now.at);
        self.near = None;
    }

    /// Back to an earlier step of the history. What was written after it is taken back.
    pub fn back_to(&mut self, at: u64) -> Result<(), Refusal> {
        if at == self.now.at {
            return Ok(());
        }
        let undone = self.kept.iter().position(|kept| kept.place.at > at && kept.written);
        self.kept.truncate(undone.unwrap_or(self.kept.len()));
        self.near = self.near.take().filter(|near| near.at <= at);
        self.written = false;
        self.now = self.nearest(at).clone();
        if at - self.now.at > NEAR {
            self.now.run_to(&self.schedule, at - NEAR)?;
            self.near = Some(self.now.clone());
        }
        self.now.run_to(&self.schedule, at)
    }

    /// The core as it was at an earlier step.
    pub fn place(&self, at: u64) -> Result<Place, Refusal> {
        let mut place = self.nearest(at).clone();
        place.run_to(&self.schedule, at)?;
        Ok(place)
    }

    /// The last copy up to a step.
    fn nearest(&self, at: u64) -> &Place {
        let kept = self.kept.iter().map(|kept| &kept.place).rfind(|place| place.at <= at);
        let near = self.near.as_ref().filter(|near| near.at <= at && kept.map_or(true, |kept| kept.at < near.at));
        near.or(kept).unwrap_or(&self.now)
    }

    /// The step that was taken last, and all that is told of it; none where the history begins, or after something was written.
    pub fn last(&self) -> Result<Option<Step>, Refusal> {
        if self.written || self.now.at == self.begin() {
            return Ok(None);
        }
        self.place(self.now.at - 1)?.step(&self.schedule).map(Some)
    }

    fn keep(&mut self) {
        let due = self.kept.last().map_or(true, |last| self.now.at >= last.place.at.saturating_add(self.every));
        if self.written || due {
            self.kept.push(Kept { place: self.now.clone(), written: self.written });
            self.written = false;
            self.thin();
        }
    }

    fn thin(&mut self) {
        if self.kept.len() <= self.most {
            return;
        }
        let mut odd = true;
        self.kept.retain(|kept| {
            odd = !odd;
            !odd || kept.written
        });
        self.every = self.every.saturating_mul(2);
        // where too many were written to, the history begins later
        self.kept.drain(..self.kept.len().saturating_sub(self.most));
    }
}

#[cfg(test)]
pub mod tests {
    use super::*;
    use crate::events::Events;
    use crate::profile::Profile;
    use crate::registers::State;

    /// One with other copies than it would have.
    pub fn with_copies(schedule: Schedule, every: u64, most: usize) -> History {
        History { every, most, ..History::new(counting(), schedule) }
    }

    /// Counts in r3, stores it over the words from 100 on and loads it back; an external event is counted in r8.
    pub fn counting() -> Capture {
        let mut memory = vec![0; 0x200];
        // addi r3,r3,1; rlwinm r4,r3,2,24,29; stw r3,256(r4); lwz r5,256(r4); b 0
        for (at, word) in [0x38630001u32, 0x5464163A, 0x90640100, 0x80A40100, 0x4BFFFFF0].iter().enumerate() {
            memory[4 * at..4 * at + 4].copy_from_slice(&word.to_be_bytes());
        }
        // addi r8,r8,1; rfi
        memory[0xA0..0xA8].copy_from_slice(&[0x39, 0x08, 0, 1, 0x4C, 0, 0, 0x64]);
        let mut capture = Capture { profile: Profile::Ppe42, state: State::zero(), memory };
        capture.set(&["MSR=00018000".into(), "IVPR=0".into()]).unwrap();
        capture
    }

    pub struct Random(pub u64);

    impl Random {
        pub fn below(&mut self, end: u64) -> u64 {
            self.0 = self.0.wrapping_mul(6_364_136_223_846_793_005).wrapping_add(1_442_695_040_888_963_407);
            (self.0 >> 33) % end
        }
    }

    /// What was, step by step, each by a call of the library.
    struct Model {
        captures: Vec<Capture>,
        bytes: Vec<u8>,
    }

    impl Model {
        fn to(&mut self, schedule: &Schedule, at: u64) {
            for step in self.bytes.len() as u64..at {
                let mut next = self.captures[step as usize].clone();
                let byte = schedule.byte(step);
                next.profile.step(&mut next.state, &mut next.memory, byte).unwrap();
                self.captures.push(next);
                self.bytes.push(byte);
            }
        }

        fn cut(&mut self, at: u64) {
            self.captures.truncate(at as usize + 1);
            self.bytes.truncate(at as usize);
        }

        fn compare(&self, history: &History) {
            let (now, was) = (&history.now, &self.captures[history.now.at as usize]);
            assert!(now.capture.state == was.state && now.capture.memory == was.memory, "at step {}", now.at);
            let bytes = (0..history.now.at).map(|step| history.schedule.byte(step));
            assert!(bytes.eq(self.bytes[..history.now.at as usize].iter().copied()), "the events before it");
        }
    }

    /// One of what a debugger can do.
    fn act(random: &mut Random, history: &mut History, model: &mut Model) {
        let at = history.now.at;
        match random.below(12) {
            0..=3 => {
                let steps = random.below(60);
                assert_eq!(history.run(None, steps).unwrap(), steps);
                model.to(&history.schedule, at + steps);
            }
            4..=6 => {
                let back = history.begin() + random.below(at - history.begin() + 1);
                history.back_to(back).unwrap();
                model.cut(back);
            }
            7 => {
                let place = random.below(0x40) as usize;
                history.now.capture.memory[0x100 + place] = 0xEE;
                history.was_written();
                model.cut(at);
                model.captures[at as usize].memory[0x100 + place] = 0xEE;
            }
            8 => {
                history.schedule.hold(1, at);
                history.was_scheduled();
            }
            9 => {
                history.schedule.release(1, at);
                history.was_scheduled();
            }
            10 => {
                history.schedule.add("at".into(), Events::steady(at + 3, at + 3, 1), at);
                history.was_scheduled();
            }
            _ => {
                let last = history.last().unwrap();
                let was = at.checked_sub(1).map(|before| &model.captures[before as usize]);
                assert!(last
                    .iter()
                    .all(|step| Some(&step.before) == was.map(|was| &was.state)
                        && step.after == history.now.capture.state));
            }
        }
        model.cut(history.now.at);
        model.compare(history);
    }

    #[test]
    fn going_back_is_exact() {
        for seed in 0..200 {
            let mut history = with_copies(Schedule::default(), 1 + seed % 40, 2 + seed as usize % 30);
            let mut model = Model { captures: vec![counting()], bytes: Vec::new() };
            let mut random = Random(seed);
            for _ in 0..300 {
                act(&mut random, &mut history, &mut model);
            }
        }
    }

    /// The copies stay few, and after very many that were written to, the history begins later.
    #[test]
    fn copies_are_few() {
        let mut history = with_copies(Schedule::default(), 1, 100);
        for _ in 0..1000 {
            history.run(None, 1).unwrap();
            assert!(history.kept.len() <= 100);
        }
        assert_eq!(history.begin(), 0);
        for _ in 0..1000 {
            history.was_written();
            history.run(None, 1).unwrap();
            assert!(history.kept.len() <= 100);
        }
        assert!(history.begin() > 0 && history.begin() < 2000);
        history.back_to(history.begin()).unwrap();
        assert_eq!(history.now.at, history.begin());
    }

    /// A way back over many steps leaves a copy near its end, from which the next one is short.
    #[test]
    fn a_long_way_back_leaves_a_copy() {
        let mut history = History::new(counting(), Schedule::default());
        history.run(None, 100_000).unwrap();
        let now = history.now.clone();
        history.back_to(90_000).unwrap();
        assert_eq!(history.near.as_ref().map(|near| near.at), Some(90_000 - NEAR));
        history.back_to(89_999).unwrap();
        assert_eq!(history.near.as_ref().map(|near| near.at), Some(90_000 - NEAR), "it served");
        history.run(None, 10_001).unwrap();
        assert!(history.now.capture.state == now.capture.state && history.now.capture.memory == now.capture.memory);
    }
}
