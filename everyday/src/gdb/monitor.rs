//! What `monitor` does in gdb: events, words, counts and captures, which the protocol has no packets for.

use super::core::Core;
use crate::events::{self, Events};
use crate::load;
use crate::numbers::grouped;
use crate::registers::{halt_words, HALT};
use std::path::Path;

const HELP: &str = "\
event now EVENT        in the next step alone
event hold EVENT       in every step from the next one on
event release [EVENT]  no longer held; without EVENT, nothing that was
event LINE             a line of events by their steps, as in 'at 100 external' or 'every 50 timer0'
events FILE            the lines of a file
events                 what is still to come
events clear           nothing more
steps                  how many steps were taken
halt                   whether the core is halted, and why
refusal                what was refused last, and why
save FILE              a capture of the core as it is
EVENT is a value from 0 to 63, or external, decrementer, timer0 to timer3 joined by +.
What is added counts from the next step on, and comes again at the same steps after going back.
";

/// What is said to a command.
pub fn command(core: &mut Core, line: &str) -> String {
    let (verb, rest) = word(line.trim());
    let said = match (verb, rest) {
        ("" | "help", _) => return HELP.into(),
        ("event", _) => event(core, rest),
        ("events", "") => Ok(to_come(core)),
        ("events", "clear") => Ok(clear(core)),
        ("events", _) => read(core, rest),
        ("steps", "") => Ok(steps(core)),
        ("halt", "") => halt(core),
        ("refusal", "") => Ok(core.refused.clone().unwrap_or("nothing was refused".into())),
        ("save", "") => Err("name the file: monitor save FILE".into()),
        ("save", _) => save(core, rest),
        _ => Err(format!("there is no '{line}'; 'monitor help' names what there is")),
    };
    format!("{}\n", said.unwrap_or_else(|wrong| wrong))
}

/// The first word, and what follows it.
fn word(text: &str) -> (&str, &str) {
    let (first, rest) = text.split_once(char::is_whitespace).unwrap_or((text, ""));
    (first, rest.trim())
}

fn event(core: &mut Core, line: &str) -> Result<String, String> {
    match word(line) {
        ("", _) => Err("name the event: monitor event now EVENT, hold EVENT, release, or a line".into()),
        ("now", event) => now(core, event),
        ("hold", event) => hold(core, event),
        ("release", event) => release(core, event),
        _ => add(core, line, Events::read(&[("event".into(), line.into())])),
    }
}

fn now(core: &mut Core, event: &str) -> Result<String, String> {
    let at = core.history.now.at;
    let events = events::byte(event).map(|byte| Events::steady(at, at, byte));
    add(core, &format!("at {at} {event}"), events)
}

fn hold(core: &mut Core, event: &str) -> Result<String, String> {
    let (at, byte) = (core.history.now.at, events::byte(event)?);
    if byte == 0 {
        return Err("0 is no event; name one to hold".into());
    }
    core.history.schedule.hold(byte, at);
    core.history.was_scheduled();
    Ok(format!("{}: held from step {at} on", events::shown(byte)))
}

fn release(core: &mut Core, event: &str) -> Result<String, String> {
    let at = core.history.now.at;
    let byte = if event.is_empty() { events::ALL } else { events::byte(event)? };
    let released = core.history.schedule.release(byte, at);
    core.history.was_scheduled();
    match released {
        0 => Err("no such event is held; 'monitor events' names what is".into()),
        byte => Ok(format!("{}: no more from step {at} on", events::shown(byte))),
    }
}

fn add(core: &mut Core, words: &str, events: Result<Events, String>) -> Result<String, String> {
    let (at, events) = (core.history.now.at, events?);
    if !events.has_from(at) {
        return Err(format!("{words}: no event comes of it; step {at} is next"));
    }
    core.history.schedule.add(words.into(), events, at);
    core.history.was_scheduled();
    Ok(format!("{words}: it counts from step {at} on"))
}

fn read(core: &mut Core, file: &str) -> Result<String, String> {
    let events = load::events(&Some(file.into()), &[]);
    add(core, file, events)
}

fn to_come(core: &Core) -> String {
    let lines: Vec<String> = core.history.schedule.from(core.history.now.at).collect();
    if lines.is_empty() {
        return "none".into();
    }
    lines.join("\n")
}

fn clear(core: &mut Core) -> String {
    let at = core.history.now.at;
    core.history.schedule.clear(at);
    core.history.was_scheduled();
    format!("none from step {at} on")
}

fn steps(core: &Core) -> String {
    let (at, begin) = (core.history.now.at, core.history.begin());
    let back = if begin == 0 { String::new() } else { format!("; back to step {} at most", grouped(begin)) };
    format!("{} steps were taken; step {at} is next{back}", grouped(at))
}

fn halt(core: &Core) -> Result<String, String> {
    let code = core.capture().state.get(HALT);
    if code == 0 {
        return Ok(format!("not halted ({})", halt_words(code)));
    }
    let last = core.history.last().map_err(|refusal| format!("refusal {refusal}"))?;
    Ok(core.why_halted(last.as_ref()))
}

fn save(core: &Core, file: &str) -> Result<String, String> {
    core.capture().write(Path::new(file))?;
    Ok(format!("wrote {file}, after {} steps", grouped(core.history.now.at)))
}
