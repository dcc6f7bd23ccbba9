//! One step and a run of them (the scope, "One step" and "A run").

use crate::interrupts::{Asynchronous, Fault, Taken};
use crate::memory;
use crate::profile::Profile;
use crate::registers::{msr, Core};
use crate::timers::Watchdog;
use crate::word::{Kind, Word};

const WATCHDOG_HALT: u32 = 4;
const WATCHDOG_RESET: u32 = 5;

/// What a step came to.
#[derive(Clone, Copy, Debug, PartialEq, Eq)]
pub enum Outcome {
    AlreadyHalted,
    WatchdogActed,
    Interrupted(Asynchronous),
    Waited,
    Executed(Kind),
    Faulted(Fault, Taken),
}

impl Outcome {
    /// The step reached past its memory: a fetch, a dcbz block or an access outside raises one of these two,
    /// unless the access crosses a group.
    pub fn reached(self) -> bool {
        matches!(self, Outcome::Faulted(Fault::InstructionStorage | Fault::DataStorage { .. }, _))
    }
}

impl Core {
    /// One step on a state, memory and event that no refusal meets.
    // Four loops have it: a call in each step would slow them by two or three percent.
    #[inline(always)]
    pub fn step(&mut self, profile: Profile, memory: &mut [u8], event: u8) -> Outcome {
        if let Some(outcome) = self.begin(event) {
            return outcome;
        }
        match self.fetch_and_execute(profile, memory) {
            Ok(kind) => Outcome::Executed(kind),
            Err(fault) => Outcome::Faulted(fault, self.fault(profile, fault)),
        }
    }

    /// Lines 1 to 5, and what the step came to if it ends with one of them.
    #[inline(always)]
    pub(crate) fn begin(&mut self, event: u8) -> Option<Outcome> {
        if self.halt != 0 {
            return Some(Outcome::AlreadyHalted);
        }
        match self.apply(event) {
            Watchdog::Quiet => {}
            Watchdog::Halt => {
                self.halt = WATCHDOG_HALT;
                return Some(Outcome::WatchdogActed);
            }
            Watchdog::Reset => {
                self.halt = WATCHDOG_RESET;
                return Some(Outcome::WatchdogActed);
            }
        }
        if let Some(cause) = self.due(event) {
            self.interrupt(cause);
            return Some(Outcome::Interrupted(cause));
        }
        (self.msr & msr::WE != 0).then_some(Outcome::Waited)
    }

    fn fetch_and_execute(&mut self, profile: Profile, memory: &mut [u8]) -> Result<Kind, Fault> {
        let word = memory::fetch(memory, self.iar)?;
        let kind = Word(word).kind(profile).ok_or(Fault::Program { word, trap: false })?;
        self.execute(profile, kind, Word(word), memory)?;
        Ok(kind)
    }

    /// The number of steps taken: up to the one that halts, at most the budget.
    pub fn run(&mut self, profile: Profile, memory: &mut [u8], events: &[u8], budget: u32) -> u32 {
        self.play(profile, memory, events, budget, |_, _| true)
    }

    /// The same, and whether a step of the run reached past memory.
    pub fn run_reach(&mut self, profile: Profile, memory: &mut [u8], events: &[u8], budget: u32) -> (u32, bool) {
        let mut reached = false;
        let steps = self.play(profile, memory, events, budget, |outcome, _| {
            reached |= outcome.reached();
            true
        });
        (steps, reached)
    }

    /// The same, but the first step that reaches past memory is the last.
    pub fn run_inside(&mut self, profile: Profile, memory: &mut [u8], events: &[u8], budget: u32) -> (u32, bool) {
        let mut reached = false;
        let steps = self.play(profile, memory, events, budget, |outcome, _| {
            reached = outcome.reached();
            !reached
        });
        (steps, reached)
    }

    /// The same as `run`, but the first step that leaves IAR at a stop is the last. Of the stops each word has a byte,
    /// which is not 0 where there is one.
    pub fn run_until(&mut self, profile: Profile, memory: &mut [u8], events: &[u8], stops: &[u8], budget: u32) -> u32 {
        self.play(profile, memory, events, budget, |_, iar| stops.get(iar as usize / 4).map_or(true, |stop| *stop == 0))
    }

    /// Goes on after a step if what it came to and the IAR that it left let it.
    fn play(
        &mut self,
        profile: Profile,
        memory: &mut [u8],
        events: &[u8],
        budget: u32,
        mut on: impl FnMut(Outcome, u32) -> bool,
    ) -> u32 {
        let mut steps = 0;
        while steps < budget && self.halt == 0 {
            let event = events.get(steps as usize).copied().unwrap_or(0);
            let outcome = self.step(profile, memory, event);
            steps += 1;
            if !on(outcome, self.iar) {
                break;
            }
        }
        steps
    }
}
