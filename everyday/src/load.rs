//! What several commands are given besides a capture: symbols, events, an end.

use crate::events::Events;
use crate::files::{self, MOST_FIRMWARE};
use crate::firmware;
use crate::numbers;
use crate::play::Until;
use crate::symbols::Symbols;
use std::path::{Path, PathBuf};

const MOST_EVENTS: usize = 16 << 20;

pub fn symbols(elf: &Option<PathBuf>) -> Result<Symbols, String> {
    let Some(path) = elf else { return Ok(Symbols::default()) };
    let file = files::read(path, MOST_FIRMWARE, "an ELF")?;
    firmware::symbols(&file).map_err(|wrong| format!("{}: {wrong}", path.display()))
}

/// The lines of a file, then those of the command line.
pub fn events(file: &Option<PathBuf>, lines: &[String]) -> Result<Events, String> {
    let mut texts = Vec::new();
    if let Some(path) = file {
        texts.push((path.display().to_string(), events_text(path)?));
    }
    texts.extend(lines.iter().map(|line| (format!("--event '{line}'"), line.clone())));
    Events::read(&texts)
}

fn events_text(path: &Path) -> Result<String, String> {
    let bytes = files::read(path, MOST_EVENTS, "a list of events")?;
    String::from_utf8(bytes).map_err(|error| {
        let good = String::from_utf8_lossy(&error.as_bytes()[..error.utf8_error().valid_up_to()]).into_owned();
        let line = good.lines().count().max(1) + usize::from(good.ends_with('\n'));
        let column = good.rsplit('\n').next().unwrap_or("").chars().count() + 1;
        format!("{}, line {line}, column {column}: this is no text; name a list of events", path.display())
    })
}

/// `100..140` in hex: from the first address up to, not including, the second, which is `end` at most.
pub fn range(text: &str, end: usize, what: &str) -> Result<(usize, usize), String> {
    let (from, to) = text.split_once("..").ok_or("write FROM..TO in hex, as in 100..140")?;
    let from = numbers::word(from)? as usize;
    let to = numbers::word(to)? as usize;
    if to <= from || to > end {
        return Err(format!("the first must be below the second, and that {end:X} at most, the end of {what}"));
    }
    Ok((from, to))
}

/// `wait`, a symbol, or an address in hex.
pub fn until(text: &Option<String>, symbols: &Symbols) -> Result<Until, String> {
    let Some(text) = text else { return Ok(Until::Nothing) };
    if text == "wait" {
        return match symbols.addresses_of(text).first() {
            Some(address) => Err(format!("--until wait: the ELF has a symbol of that name; write {address:08X} for it, or leave out --elf for the wait state")),
            None => Ok(Until::Wait),
        };
    }
    let address = match symbols.addresses_of(text)[..] {
        [address] => address,
        [] => numbers::word(text).map_err(|_| no_place(text, symbols))?,
        ref several => {
            let places: Vec<String> = several.iter().map(|address| format!("{address:08X}")).collect();
            return Err(format!("--until {text}: the ELF has it at {}; name the address", places.join(" and ")));
        }
    };
    if address % 4 != 0 {
        return Err(format!(
            "--until {text}: {address:08X} is no multiple of 4, and IAR always is; name another address"
        ));
    }
    Ok(Until::Address(address))
}

fn no_place(text: &str, symbols: &Symbols) -> String {
    let what = "it is no address in hex";
    if symbols.is_empty() {
        return format!(
            "--until {text}: {what}; for a symbol name the ELF with --elf, for the wait state write 'wait'"
        );
    }
    format!("--until {text}: the ELF has no such symbol, and {what}; for the wait state write 'wait'")
}
