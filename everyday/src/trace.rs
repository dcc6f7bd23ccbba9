//! `trace`: a line a step.

use crate::args::Trace;
use crate::capture::Capture;
use crate::changes::words;
use crate::events;
use crate::library::{self, Told};
use crate::list::{self, WIDTH};
use crate::load;
use crate::numbers;
use crate::play::{self, Engine, Until};
use crate::profile::Profile;
use crate::refusals;
use crate::registers::{changed, halt_words, DEC, HALT, IAR, REGISTERS};
use crate::say;
use crate::step::{self, Step};
use crate::symbols::Symbols;
use std::process::ExitCode;

/// Letters of a symbol, before what follows moves.
const NAME: usize = 16;

pub fn trace(profile: Profile, args: &Trace) -> Result<ExitCode, String> {
    let mut capture = Capture::read(profile, &args.capture)?;
    capture.set(&args.set)?;
    let symbols = load::symbols(&args.elf)?;
    let events = load::events(&args.events, &args.event)?;
    let from = numbers::count(&args.from).map_err(|wrong| format!("--from {wrong}"))?;
    let steps = numbers::count(&args.steps).map_err(|wrong| format!("--steps {wrong}"))?;
    let before = play::play(Engine::Plain, &mut capture, &events, from, Until::Nothing)
        .map_err(|refusal| refusals::of_start(refusal, &capture))?;
    if let Some(last) = before.last {
        say!("step {from} does not come: {}", last.end(&symbols));
        return Ok(ExitCode::SUCCESS);
    }
    let mut list = Vec::new();
    for number in from..from.saturating_add(steps) {
        if library::halted(&capture.state) {
            say!("halted with {}", halt_words(capture.state.get(HALT)));
            break;
        }
        events.list(number, 1, &mut list);
        let event = list.first().copied().unwrap_or(0);
        let step = step::take(&mut capture, number, event).map_err(|refusal| refusals::of_start(refusal, &capture))?;
        if !say!("{}", line(profile, &step, &symbols)) {
            break;
        }
    }
    Ok(ExitCode::SUCCESS)
}

/// Number, address, word, instruction, name, what was done and what changed.
fn line(profile: Profile, step: &Step, symbols: &Symbols) -> String {
    let at = step.before.get(IAR);
    let word = step.word.map_or("-".repeat(8), |word| format!("{word:08X}"));
    let instruction = step.word.map_or(String::new(), |word| list::instruction(profile, word));
    let name = symbols.name_of(at).unwrap_or_default();
    let name = if symbols.is_empty() { name } else { format!("{name:<NAME$}  ") };
    let mut parts = vec![did(step, symbols)];
    parts.extend(step.word.and_then(|word| list::unwritten(profile, word)));
    if step.event != 0 {
        parts.push(format!("event {}", events::shown(step.event)));
    }
    parts.extend(access(step, symbols));
    parts.extend(frame(step, symbols));
    parts.extend(registers(step, symbols));
    format!("{:>8}  {at:08X}  {word}  {instruction:<WIDTH$}  {name}{}", step.number, parts.join(", "))
}

fn did(step: &Step, symbols: &Symbols) -> String {
    match step.told {
        Told::Faults(fault) => format!("{}; {}", step.fault(fault, symbols), step.led_to(symbols)),
        Told::Takes(_) => format!("{} taken, {}", step.name(), step.led_to(symbols)),
        _ => match step.halted() {
            Some(why) => format!("{}; {why}", step.name()),
            None => step.name().into(),
        },
    }
}

/// What it loaded, or stored over what was there.
fn access(step: &Step, symbols: &Symbols) -> Option<String> {
    let access = step.access.filter(|_| step.told == Told::Executes)?;
    let place = symbols.place(access.address);
    let (old, new) = (words(&step.bytes.0), words(&step.bytes.1));
    Some(if access.writes { format!("store [{place}] {old} -> {new}") } else { format!("load [{place}] {new}") })
}

/// Where a frame lies that it loaded or stored, and which words of it changed, also before a fault.
fn frame(step: &Step, symbols: &Symbols) -> Vec<String> {
    let Some(frame) = &step.frame else { return Vec::new() };
    let mut parts = Vec::new();
    if step.told == Told::Executes {
        parts.push(format!("{} frame [{}..{:08X}]", frame.verb(), symbols.place(frame.access.address), frame.last()));
    }
    let changed = frame.changed.iter();
    parts.extend(changed.map(|word| format!("[{:08X}] {:08X} -> {:08X}", word.address, word.old, word.new)));
    parts
}

/// The registers that changed; IAR and DEC only where they did more than count on.
fn registers(step: &Step, symbols: &Symbols) -> Vec<String> {
    let counts = step.after.get(DEC) == step.before.get(DEC).wrapping_sub(1);
    let mut shown = Vec::new();
    for place in changed(&step.before, &step.after) {
        let (old, new) = (step.before.get(place), step.after.get(place));
        match place {
            DEC if counts => {}
            HALT => {}
            IAR if step.goes_on() || step.leads() => {}
            IAR => shown.push(format!("IAR -> {}", symbols.place(new))),
            _ => shown.push(format!("{} {old:08X} -> {new:08X}", REGISTERS[place].name)),
        }
    }
    shown
}
