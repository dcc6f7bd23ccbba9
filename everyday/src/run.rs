//! `run`: a capture played, and what came of it.

use crate::args::Run;
use crate::capture::Capture;
use crate::changes;
use crate::expect::{self, Expected};
use crate::files;
use crate::load;
use crate::numbers::{self, grouped};
use crate::play::{self, End, Engine, Played, Until};
use crate::profile::Profile;
use crate::refusals;
use crate::registers::{self, HALT, IAR, MSR, WE};
use crate::symbols::Symbols;
use crate::{complain, say};
use serde_json::json;
use std::process::ExitCode;

/// Lines of memory that are shown.
const SHOWN: usize = 32;

pub fn run(profile: Profile, args: &Run) -> Result<ExitCode, String> {
    let mut after = Capture::read(profile, &args.capture)?;
    after.set(&args.set)?;
    let symbols = load::symbols(&args.elf)?;
    let events = load::events(&args.events, &args.event)?;
    let until = load::until(&args.until, &symbols)?;
    let budget = numbers::count(&args.steps).map_err(|wrong| format!("--steps {wrong}"))?;
    let expected = args.expect.as_deref().map(Expected::read).transpose()?;
    if until == Until::Nothing && expected.as_ref().is_some_and(Expected::wants_until) {
        return Err("--expect until: there is no --until; name where the run is to end".into());
    }
    args.out.as_deref().map_or(Ok(()), files::has_place)?;
    let before = after.clone();
    let engine = if args.plain { Engine::Plain } else { Engine::Predecoded };
    let played = play::play(engine, &mut after, &events, budget, until)
        .map_err(|refusal| refusals::of_start(refusal, &before))?;
    let report = Report { before: &before, after: &after, played: &played, symbols: &symbols };
    let met = expected.as_ref().map(|expected| expected.met(&played, &after));
    if args.json {
        report.json(expected.as_ref().zip(met));
    } else {
        report.text();
    }
    if let Some(out) = &args.out {
        after.write(out)?;
        if !args.json {
            say!("wrote    {}", out.display());
        }
    }
    let Some((expected, false)) = expected.zip(met) else { return Ok(ExitCode::SUCCESS) };
    let came = expected.came(&played, &after);
    complain!("not as expected\n  expected  {}\n  came      {came}: {}", expected.text, report.why());
    Ok(ExitCode::from(1))
}

struct Report<'a> {
    before: &'a Capture,
    after: &'a Capture,
    played: &'a Played,
    symbols: &'a Symbols,
}

impl Report<'_> {
    fn text(&self) {
        say!("steps    {}", grouped(self.played.steps));
        say!("stopped  {}", self.why());
        say!("reach    {}", self.reach());
        say!("time     {}", self.time());
        let places = registers::changed(&self.before.state, &self.after.state);
        say!("registers that changed: {}", places.len());
        changes::show_registers(&self.before.state, &self.after.state, &places);
        let lines = changes::lines(&self.before.memory, &self.after.memory);
        say!("lines of memory that changed: {}", lines.len());
        let shown = &lines[..lines.len().min(SHOWN)];
        changes::show_memory(&self.before.memory, &self.after.memory, shown);
        if lines.len() > SHOWN {
            say!("  and {} more; with --out, ./ppe42 diff shows them all", lines.len() - SHOWN);
        }
    }

    /// Why it stopped, in a sentence.
    fn why(&self) -> String {
        let state = &self.after.state;
        match (self.played.end, &self.played.last) {
            (End::Halted, Some(step)) => step.end(self.symbols),
            (End::CameTo(address), _) => format!("came to {}", self.symbols.place(address)),
            (End::CameToWait, _) => format!("waits at {}: MSR[WE] was set", self.symbols.place(state.get(IAR))),
            (End::WasHalted, _) => {
                format!(
                    "the capture is halted with {}, so no step was taken; --set halt=0 lets it go on",
                    state.get(HALT)
                )
            }
            _ if state.get(MSR) & WE != 0 => {
                format!("all steps are used; it waits at {}", self.symbols.place(state.get(IAR)))
            }
            _ => format!("all steps are used; next is {}", self.symbols.place(state.get(IAR))),
        }
    }

    fn reach(&self) -> String {
        match self.played.reached {
            Some(step) => {
                format!("past its memory, first in step {step}: promise 3 speaks only of the steps before it")
            }
            None => "never past its memory: more memory or a longer run does not alter this (promise 3)".into(),
        }
    }

    fn time(&self) -> String {
        let seconds = self.played.time.as_secs_f64();
        let rate = self.played.steps as f64 / seconds.max(1e-9) / 1e6;
        format!("{seconds:.3} s, {rate:.1} million steps a second")
    }

    fn json(&self, expected: Option<(&Expected, bool)>) {
        let (registers, memory) = changes::json(self.before, self.after);
        let last = self.played.last.as_ref();
        let report = json!({
            "steps": self.played.steps,
            "outcome": expect::outcome(self.played, self.after),
            "halt": self.after.state.get(HALT),
            "iar": format!("{:08X}", self.after.state.get(IAR)),
            "why": self.why(),
            "last": last.map(|step| step.name()),
            "reached": self.played.reached,
            "seconds": self.played.time.as_secs_f64(),
            "registers": registers,
            "memory": memory,
            "expected": expected.map(|(expected, met)| json!({ "text": expected.text, "met": met })),
        });
        say!("{report:#}");
    }
}
