//! A run of any length: runs of the library one after the other, with the event list going on.

use crate::capture::Capture;
use crate::events::Events;
use crate::library::{self, Refusal, MOST};
use crate::profile::Profile;
use crate::progress::Progress;
use crate::registers::{IAR, MSR, WE};
use crate::step::{self, Step};
use std::time::{Duration, Instant};

/// What ends a run, besides a halt and the budget.
#[derive(Clone, Copy, PartialEq)]
pub enum Until {
    Nothing,
    Address(u32),
    Wait,
}

/// What plays the runs; their outcome is the same.
#[derive(Clone, Copy, PartialEq)]
pub enum Engine {
    Plain,
    /// Keeps decoded words.
    Predecoded,
}

#[derive(Clone, Copy, Debug, PartialEq)]
pub enum End {
    /// The budget is used.
    Used,
    Halted,
    CameTo(u32),
    CameToWait,
    /// The capture had a halt code: no step.
    WasHalted,
}

pub struct Played {
    pub steps: u64,
    pub end: End,
    /// The first step that reached past the memory.
    pub reached: Option<u64>,
    /// The step that halted the core.
    pub last: Option<Step>,
    /// How long the steps took, without the search for one of them.
    pub time: Duration,
}

/// Runs of the library between two copies of memory and state, from which a step is found again: few enough to play again in
/// a fraction of a second, and enough for the copies not to count.
const KEPT: u64 = 16;

/// Steps whose event bytes are asked for at once, where each step is looked at.
const LOOKED_AT: u32 = 4096;

struct Player<'a> {
    engine: Engine,
    capture: &'a mut Capture,
    events: &'a Events,
    list: Vec<u8>,
    steps: u64,
    reached: Option<u64>,
    kept: Capture,
    kept_at: u64,
    searched: Duration,
}

pub fn play(
    engine: Engine,
    capture: &mut Capture,
    events: &Events,
    budget: u64,
    until: Until,
) -> Result<Played, Refusal> {
    let was_halted = library::halted(&capture.state);
    let kept = capture.clone();
    let mut player = Player {
        engine,
        capture,
        events,
        list: Vec::new(),
        steps: 0,
        reached: None,
        kept,
        kept_at: 0,
        searched: Duration::ZERO,
    };
    let mut progress = Progress::new(budget);
    let started = Instant::now();
    let mut end = if was_halted { End::WasHalted } else { End::Used };
    while end == End::Used && player.steps < budget {
        end = match until {
            Until::Nothing => player.stretch(budget)?,
            _ => player.looked_at(budget, until)?,
        };
        progress.at(player.steps);
    }
    progress.end();
    let time = started.elapsed() - player.searched;
    let last = if end == End::Halted { Some(player.last()?) } else { None };
    Ok(Played { steps: player.steps, end, reached: player.reached, last, time })
}

impl Player<'_> {
    /// Up to 1,048,576 steps.
    fn stretch(&mut self, budget: u64) -> Result<End, Refusal> {
        if self.steps - self.kept_at >= KEPT * MOST as u64 {
            self.keep();
        }
        let most = (budget - self.steps).min(MOST as u64) as u32;
        self.events.list(self.steps, most, &mut self.list);
        // after the first reach there is nothing more to tell
        let run = match (self.engine, self.reached) {
            (Engine::Plain, None) => Profile::run_reach,
            (Engine::Plain, Some(_)) => Profile::run,
            (Engine::Predecoded, None) => Profile::run_predecoded_reach,
            (Engine::Predecoded, Some(_)) => Profile::run_predecoded,
        };
        let answer = run(self.capture.profile, &mut self.capture.state, &mut self.capture.memory, &self.list, most)?;
        self.steps += u64::from(answer.count);
        if answer.reached {
            let began = Instant::now();
            self.reached = Some(self.first_reach()?);
            self.searched += began.elapsed();
        }
        Ok(if library::halted(&self.capture.state) { End::Halted } else { End::Used })
    }

    /// Some steps one by one, until one of them is where the run is to end.
    fn looked_at(&mut self, budget: u64, until: Until) -> Result<End, Refusal> {
        self.keep();
        let most = (budget - self.steps).min(LOOKED_AT.into()) as u32;
        self.events.list(self.steps, most, &mut self.list);
        for k in 0..most as usize {
            let event = [self.list.get(k).copied().unwrap_or(0)];
            let waited = self.capture.state.get(MSR) & WE != 0;
            let Capture { profile, state, memory } = &mut *self.capture;
            let answer = profile.run_reach(state, memory, &event, 1)?;
            if answer.reached {
                self.reached.get_or_insert(self.steps);
            }
            self.steps += u64::from(answer.count);
            let state = &self.capture.state;
            if library::halted(state) {
                return Ok(End::Halted);
            }
            match until {
                Until::Address(address) if state.get(IAR) == address => return Ok(End::CameTo(address)),
                Until::Wait if !waited && state.get(MSR) & WE != 0 => return Ok(End::CameToWait),
                _ => {}
            }
        }
        Ok(End::Used)
    }

    fn keep(&mut self) {
        self.kept.state = self.capture.state.clone();
        self.kept.memory.copy_from_slice(&self.capture.memory);
        self.kept_at = self.steps;
    }

    /// The first step that reached past the memory, found from what was kept; one of the steps since then did.
    fn first_reach(&mut self) -> Result<u64, Refusal> {
        let mut capture = self.kept.clone();
        let mut at = self.kept_at;
        loop {
            self.events.list(at, MOST as u32, &mut self.list);
            let answer =
                capture.profile.run_inside(&mut capture.state, &mut capture.memory, &self.list, MOST as u32)?;
            at += u64::from(answer.count);
            if answer.reached {
                return Ok(at - 1);
            }
        }
    }

    /// The step that halted the core, played again from what was kept.
    fn last(&mut self) -> Result<Step, Refusal> {
        let mut capture = self.kept.clone();
        let mut at = self.kept_at;
        let run = if self.engine == Engine::Plain { Profile::run } else { Profile::run_predecoded };
        while at < self.steps - 1 {
            let most = (self.steps - 1 - at).min(MOST as u64) as u32;
            self.events.list(at, most, &mut self.list);
            at += u64::from(run(capture.profile, &mut capture.state, &mut capture.memory, &self.list, most)?.count);
        }
        self.events.list(at, 1, &mut self.list);
        step::take(&mut capture, at, self.list.first().copied().unwrap_or(0))
    }
}
