//! A core under a debugger: on and back, up to where it is to stop. Of a PowerPC gdb expects to be told of a watchpoint before the
//! step that meets it is taken, or taken back, and then asks for that step with the watchpoint removed.

use super::history::{History, Place};
use super::stops::{Met, Stops};
use crate::capture::Capture;
use crate::library::{self, Fault, Refusal, Told, MOST};
use crate::refusals;
use crate::registers::{halt_words, State, HALT};
use crate::step::Step;
use crate::symbols::Symbols;

pub struct Core {
    pub history: History,
    pub stops: Stops,
    pub symbols: Symbols,
    /// What was refused last, in words.
    pub refused: Option<String>,
}

/// Why it stopped, as gdb is told: by a signal and a reason of the protocol's; and in words, where gdb has none of its own.
#[derive(Clone, Default)]
pub struct Stopped {
    signal: u8,
    reason: String,
    pub words: Option<String>,
}

// gdb's numbers
const INT: u8 = 2;
const ILL: u8 = 4;
const TRAP: u8 = 5;
const ABRT: u8 = 6;
const EMT: u8 = 7;
const BUS: u8 = 10;
const SEGV: u8 = 11;

impl Stopped {
    fn by(signal: u8) -> Stopped {
        Stopped { signal, ..Stopped::default() }
    }

    /// A step was taken, a breakpoint is here, or nothing was done yet.
    pub fn here() -> Stopped {
        Stopped::by(TRAP)
    }

    fn by_watchpoint(met: Met) -> Stopped {
        Stopped { reason: format!("{}:{:x};", met.name, met.address), ..Stopped::by(TRAP) }
    }

    fn at_begin() -> Stopped {
        Stopped { reason: "replaylog:begin;".into(), ..Stopped::by(TRAP) }
    }

    /// The answer of the protocol.
    pub fn told(&self) -> String {
        format!("T{:02x}{}", self.signal, self.reason)
    }
}

/// Steps that are looked at one by one before Ctrl-C is looked for.
const LOOKED_AT: u64 = 4096;

/// Whether the debugger wants the core to stop.
pub type Interrupted<'a> = &'a mut dyn FnMut() -> bool;

impl Core {
    pub fn new(history: History, symbols: Symbols) -> Core {
        let stops = Stops::new(history.now.capture.memory.len());
        Core { history, stops, symbols, refused: None }
    }

    pub fn capture(&self) -> &Capture {
        &self.history.now.capture
    }

    /// Another state, if a run accepts it; if not, why, in words.
    pub fn put_state(&mut self, state: State) -> Result<(), String> {
        let capture = &mut self.history.now.capture;
        let before = std::mem::replace(&mut capture.state, state);
        let checked = capture.profile.start_check(&capture.state, &capture.memory);
        if let Err(refusal) = checked {
            let words = refusals::of_start(refusal, capture);
            capture.state = before;
            self.refused = Some(words.clone());
            return Err(words);
        }
        self.history.was_written();
        Ok(())
    }

    /// Bytes into memory, all of them or, where one is outside, none.
    pub fn put_memory(&mut self, address: u32, bytes: &[u8]) -> bool {
        let (start, length) = (address as usize, self.capture().memory.len());
        let Some(place) = self.history.now.capture.memory.get_mut(start..start + bytes.len()) else {
            let end = start + bytes.len();
            self.refused =
                Some(format!("bytes {start:08X}..{end:08X} are not inside the memory, which ends at {length:08X}"));
            return false;
        };
        place.copy_from_slice(bytes);
        if !bytes.is_empty() {
            self.history.was_written();
        }
        true
    }

    /// One step; one that meets a watchpoint is not taken.
    pub fn step(&mut self) -> Result<Stopped, Refusal> {
        let before = self.stays_halted()?.or(self.met(&self.history.now).map(Stopped::by_watchpoint));
        if let Some(stopped) = before {
            return Ok(stopped);
        }
        self.history.run(None, 1)?;
        Ok(self.stopped()?.unwrap_or(Stopped::here()))
    }

    /// Steps until there is a reason to stop.
    pub fn go_on(&mut self, interrupted: Interrupted) -> Result<Stopped, Refusal> {
        if let Some(stopped) = self.stays_halted()? {
            return Ok(stopped);
        }
        loop {
            let stopped = if self.stops.watches() { self.looked_at()? } else { self.stretch()? };
            if let Some(stopped) = stopped {
                return Ok(stopped);
            }
            if interrupted() {
                return Ok(Stopped::by(INT));
            }
        }
    }

    fn stretch(&mut self) -> Result<Option<Stopped>, Refusal> {
        self.history.run(self.stops.words(), MOST as u64)?;
        self.stopped()
    }

    /// Some steps one by one.
    fn looked_at(&mut self) -> Result<Option<Stopped>, Refusal> {
        for _ in 0..LOOKED_AT {
            if let Some(met) = self.met(&self.history.now) {
                return Ok(Some(Stopped::by_watchpoint(met)));
            }
            self.history.run(None, 1)?;
            if let Some(stopped) = self.stopped()? {
                return Ok(Some(stopped));
            }
        }
        Ok(None)
    }

    /// Back by one step; one that met a watchpoint is not taken back.
    pub fn step_back(&mut self) -> Result<Stopped, Refusal> {
        let at = self.history.now.at;
        if at == self.history.begin() {
            return Ok(Stopped::at_begin());
        }
        if self.stops.watches() {
            if let Some(met) = self.met(&self.history.place(at - 1)?) {
                return Ok(Stopped::by_watchpoint(met));
            }
        }
        self.history.back_to(at - 1)?;
        Ok(Stopped::here())
    }

    /// Back to the last place before this one where there is a reason to stop, or to where the history begins.
    pub fn go_back(&mut self, interrupted: Interrupted) -> Result<Stopped, Refusal> {
        let mut end = self.history.now.at;
        let mut found = None;
        let searched = if self.stops.is_empty() { 0 } else { usize::MAX };
        for copy in self.history.copies().take(searched) {
            found = match self.last_reason(copy, end, interrupted)? {
                Looked::Interrupted => return Ok(Stopped::by(INT)),
                Looked::Through(found) => found,
            };
            if found.is_some() {
                break;
            }
            end = copy.at;
        }
        let (at, stopped) = found.unwrap_or((self.history.begin(), Stopped::at_begin()));
        self.history.back_to(at)?;
        Ok(stopped)
    }

    /// The last reason to stop on the way from a copy to step `end`, and where: before the step at a breakpoint, behind the one that
    /// meets a watchpoint.
    fn last_reason(&self, copy: &Place, end: u64, interrupted: Interrupted) -> Result<Looked, Refusal> {
        let mut place = copy.clone();
        let mut found = None;
        let most = if self.stops.watches() { 1 } else { u64::MAX };
        let mut runs = 0;
        while place.at < end {
            if self.is_at_breakpoint(&place) {
                found = Some((place.at, Stopped::here()));
            }
            if let Some(met) = self.met(&place) {
                found = Some((place.at + 1, Stopped::by_watchpoint(met)));
            }
            if place.run(&self.history.schedule, self.stops.words(), most.min(end - place.at))? == 0 {
                break;
            }
            runs += 1;
            if (most > 1 || runs % LOOKED_AT == 0) && interrupted() {
                return Ok(Looked::Interrupted);
            }
        }
        Ok(Looked::Through(found))
    }

    /// The watchpoint that the next step of a core meets.
    fn met(&self, place: &Place) -> Option<Met> {
        if !self.stops.watches() {
            return None;
        }
        let event = self.history.schedule.byte(place.at);
        let Capture { profile, state, memory } = &place.capture;
        let access = profile.access(state, memory, event)?;
        let met = self.stops.met(&access)?;
        // one that faults accesses nothing, but for what a 42X's stsku has stored before its fault
        let executes = profile.tell(state, memory, event) == Ok(Told::Executes);
        (executes || access.writes && changes_memory(place.capture.clone(), event)).then_some(met)
    }

    /// Where it stands after a step: halted, or at a breakpoint.
    fn stopped(&self) -> Result<Option<Stopped>, Refusal> {
        if library::halted(&self.capture().state) {
            return self.halted().map(Some);
        }
        Ok(self.is_at_breakpoint(&self.history.now).then(Stopped::here))
    }

    /// Whether the next step of a core fetches at a breakpoint: an interrupt that comes first is entered, and a wait goes on.
    fn is_at_breakpoint(&self, place: &Place) -> bool {
        let Capture { profile, state, memory } = &place.capture;
        let told = || profile.tell(state, memory, self.history.schedule.byte(place.at));
        self.stops.is_at(place.iar()) && matches!(told(), Ok(Told::Executes | Told::Faults(_)))
    }

    fn halted(&self) -> Result<Stopped, Refusal> {
        let last = self.history.last()?;
        Ok(Stopped { words: Some(self.why_halted(last.as_ref())), ..Stopped::by(signal(last.as_ref())) })
    }

    /// By the step that halted it, where there is one.
    pub fn why_halted(&self, last: Option<&Step>) -> String {
        let code = self.capture().state.get(HALT);
        match last.filter(|step| step.halted().is_some()) {
            Some(step) => step.end(&self.symbols),
            None => format!("halted with {}", halt_words(code)),
        }
    }

    fn stays_halted(&self) -> Result<Option<Stopped>, Refusal> {
        let code = self.capture().state.get(HALT);
        if code == 0 {
            return Ok(None);
        }
        let words = format!("the core is halted with {code}, so no step was taken; 'set $halt = 0' lets it go on");
        Ok(Some(Stopped { words: Some(words), ..Stopped::by(signal(self.history.last()?.as_ref())) }))
    }
}

enum Looked {
    Through(Option<(u64, Stopped)>),
    Interrupted,
}

fn changes_memory(mut capture: Capture, event: u8) -> bool {
    let before = capture.memory.clone();
    capture.profile.step(&mut capture.state, &mut capture.memory, event).is_ok() && capture.memory != before
}

/// The signal for the step that halted the core. It is never TRAP, which to gdb ends a step and not all that are to be taken.
fn signal(last: Option<&Step>) -> u8 {
    let halted = last.filter(|step| step.halted().is_some());
    match halted.map(|step| (step.told, step.after.get(HALT))) {
        Some((Told::Faults(Fault::DataStorage | Fault::InstructionStorage), _)) => SEGV,
        Some((Told::Faults(Fault::Alignment), _)) => BUS,
        Some((Told::Faults(Fault::Illegal), _)) => ILL,
        Some((Told::Faults(Fault::Trap), _) | (_, 3)) => EMT,
        _ => ABRT,
    }
}

#[cfg(test)]
mod tests {
    use super::super::history::tests::{counting, with_copies, Random};
    use super::super::schedule::Schedule;
    use super::super::stops::{Kind, Stop};
    use super::*;
    use crate::events::Events;

    const STEPS: u64 = 400;

    /// Every place of a run, each by a call of the library, and what is told there.
    fn places(schedule: &Schedule) -> Vec<Place> {
        let mut places = vec![Place { capture: counting(), at: 0 }];
        for at in 0..STEPS {
            let mut next = places[at as usize].capture.clone();
            next.profile.step(&mut next.state, &mut next.memory, schedule.byte(at)).unwrap();
            places.push(Place { capture: next, at: at + 1 });
        }
        places
    }

    fn schedule() -> Schedule {
        let mut schedule = Schedule::default();
        schedule.add("every 17 external".into(), Events::read(&[("".into(), "every 17 external".into())]).unwrap(), 0);
        schedule
    }

    /// Where going on from a place stops, looked for step by step.
    fn next(core: &Core, places: &[Place], from: u64) -> Option<(u64, String)> {
        places[from as usize..].windows(2).find_map(|pair| {
            let met = core.met(&pair[0]).map(|met| (pair[0].at, Stopped::by_watchpoint(met).told()));
            met.or(core.is_at_breakpoint(&pair[1]).then(|| (pair[1].at, Stopped::here().told())))
        })
    }

    /// Where going back from a place stops.
    fn last(core: &Core, places: &[Place], from: u64) -> (u64, String) {
        let behind = |place: &Place| {
            let met = place.at.checked_sub(1).and_then(|before| core.met(&places[before as usize]));
            met.map(|met| (place.at, Stopped::by_watchpoint(met).told()))
        };
        let at = |place: &Place| core.is_at_breakpoint(place).then(|| (place.at, Stopped::here().told()));
        let earlier = places[..from as usize].iter().rev().find_map(|place| at(place).or(behind(place)));
        behind(&places[from as usize]).or(earlier).unwrap_or((0, Stopped::at_begin().told()))
    }

    fn stop(random: &mut Random) -> Stop {
        let kinds = [Kind::Software, Kind::Hardware, Kind::Store, Kind::Load, Kind::Both];
        match kinds[random.below(5) as usize] {
            kind @ (Kind::Software | Kind::Hardware) => {
                let address = [0, 8, 12, 0xA0, 0xA4, 0x40][random.below(6) as usize];
                Stop { kind, address, bytes: 4 }
            }
            kind => Stop { kind, address: 0x100 + random.below(0xF0) as u32, bytes: 1 + random.below(8) as u32 },
        }
    }

    #[test]
    fn stops_are_where_single_steps_find_them() {
        let places = places(&schedule());
        for seed in 0..150 {
            let mut random = Random(seed);
            let mut core = Core::new(with_copies(schedule(), 1 + seed % 60, 3 + seed as usize % 9), Symbols::default());
            (0..1 + random.below(4)).for_each(|_| assert!(core.stops.set(stop(&mut random))));
            core.history.run(None, STEPS).unwrap();
            for _ in 0..40 {
                let from = random.below(core.history.now.at + 1);
                core.history.back_to(from).unwrap();
                let (wanted, stopped) = match (random.below(2), next(&core, &places, from)) {
                    (0, Some(wanted)) => (wanted, core.go_on(&mut || false).unwrap()),
                    _ => (last(&core, &places, from), core.go_back(&mut || false).unwrap()),
                };
                assert_eq!((core.history.now.at, stopped.told()), wanted, "from {from}");
                let (now, was) = (&core.history.now, &places[wanted.0 as usize]);
                assert!(now.capture.state == was.capture.state && now.capture.memory == was.capture.memory);
            }
        }
    }

    /// Each step on is one step, but where it meets a watchpoint; and so each step back.
    #[test]
    fn steps_stay_where_they_meet_a_watchpoint() {
        let mut core = Core::new(with_copies(schedule(), 7, 9), Symbols::default());
        let watched = Stop { kind: Kind::Store, address: 0x104, bytes: 4 };
        assert!(core.stops.set(watched));
        assert_eq!(core.step().unwrap().told(), "T05");
        assert_eq!(core.step().unwrap().told(), "T05");
        assert_eq!((core.step().unwrap().told().as_str(), core.history.now.at), ("T05watch:104;", 2));
        core.stops.unset(watched);
        assert_eq!((core.step().unwrap().told().as_str(), core.history.now.at), ("T05", 3));
        core.stops.set(watched);
        assert_eq!((core.step_back().unwrap().told().as_str(), core.history.now.at), ("T05watch:104;", 3));
        core.stops.unset(watched);
        assert_eq!((core.step_back().unwrap().told().as_str(), core.history.now.at), ("T05", 2));
    }

    /// A breakpoint where the core waits, or where an interrupt comes first, does not stop it there.
    #[test]
    fn a_wait_goes_on_at_a_breakpoint() {
        let mut core = Core::new(with_copies(Schedule::default(), 100, 9), Symbols::default());
        let mut state = core.capture().state.clone();
        state.put(crate::registers::MSR, 0x0005_8000);
        core.put_state(state).unwrap();
        assert!(core.stops.set(Stop { kind: Kind::Software, address: 0, bytes: 4 }));
        let mut turns = 0;
        let stopped = core.go_on(&mut || {
            turns += 1;
            turns > 100
        });
        assert_eq!((stopped.unwrap().told().as_str(), core.history.now.at), ("T02", 101));
        core.history.schedule.hold(1, 101);
        core.stops.set(Stop { kind: Kind::Software, address: 0xA4, bytes: 4 });
        assert_eq!(core.go_on(&mut || false).unwrap().told(), "T05");
        assert_eq!((core.history.now.at, core.history.now.iar()), (103, 0xA4));
    }
}
