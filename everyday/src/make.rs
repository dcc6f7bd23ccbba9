//! `make`: firmware to a capture.

use crate::args::Make;
use crate::capture::Capture;
use crate::files::{self, MOST_FIRMWARE};
use crate::firmware::{self, Code, Firmware, Lacking};
use crate::library::{BLOCK, MOST};
use crate::numbers;
use crate::profile::Profile;
use crate::registers::{State, IAR};
use crate::symbols::Symbols;
use crate::{complain, say};
use std::path::Path;
use std::process::ExitCode;

/// Words that are named one by one.
const NAMED: usize = 20;

pub fn make(profile: Profile, args: &Make) -> Result<ExitCode, String> {
    if files::same(&args.firmware, &args.out) {
        return Err(format!("{} is the firmware itself; name another capture", args.out.display()));
    }
    let file = files::read(&args.firmware, MOST_FIRMWARE, "a firmware")?;
    let made = made(profile, &args.firmware, &file, &args.memory, &args.set, args.anyway)?;
    let Some((capture, symbols)) = made else {
        complain!("no capture was written; write the firmware without these (docs/FIRMWARE.md), or add --anyway");
        return Ok(ExitCode::from(1));
    };
    capture.write(&args.out)?;
    let (lent, iar) = (capture.memory.len(), symbols.place(capture.state.get(IAR)));
    say!("wrote {}: memory {lent} bytes, IAR {iar}", args.out.display());
    Ok(ExitCode::SUCCESS)
}

/// The capture of a firmware, and its symbols; nothing if the core lacks words of it, which are named, unless it is made anyway.
pub fn made(
    profile: Profile,
    path: &Path,
    file: &[u8],
    memory: &str,
    set: &[String],
    anyway: bool,
) -> Result<Option<(Capture, Symbols)>, String> {
    let firmware = firmware::load(&path.display().to_string(), file, lent(memory)?)?;
    let mut capture = Capture { profile, state: State::zero(), memory: firmware.memory.clone() };
    capture.state.put(IAR, firmware.entry);
    capture.set(set).map_err(|wrong| with_entry(wrong, firmware.entry))?;
    let lacks = tell_lacking(profile, &firmware);
    Ok((!lacks || anyway).then_some((capture, firmware.symbols)))
}

/// What is wrong, with where an IAR that no run accepts came from; of the firmwares S-records alone can have one.
fn with_entry(wrong: String, entry: u32) -> String {
    match entry % 4 {
        0 => wrong,
        _ => format!("{wrong} (the end record has the address {entry:08X}; --set IAR=HEX gives another)"),
    }
}

fn lent(text: &str) -> Result<usize, String> {
    let lent = numbers::count(text).map_err(|wrong| format!("--memory {wrong}"))?;
    match usize::try_from(lent) {
        Ok(lent) if lent > 0 && lent <= MOST && lent % BLOCK == 0 => Ok(lent),
        _ => Err(format!("--memory {text}: lend a multiple of {BLOCK}, from {BLOCK} to {MOST}")),
    }
}

/// Names the words of the code that the core lacks; whether there are any.
fn tell_lacking(profile: Profile, firmware: &Firmware) -> bool {
    let code = match &firmware.code {
        Code::Known(code) => code,
        Code::Untold(what) => {
            say!("{what}");
            return false;
        }
    };
    let (words, lacking) = firmware::lacking(profile, code, &firmware.symbols);
    let core = profile.name();
    for &Lacking { address, word } in lacking.iter().take(NAMED) {
        let place = firmware.symbols.place(address);
        let wider = line_of_42x(profile, word).map_or(String::new(), |line| format!("; a PPE 42X has it: {line}"));
        say!("{place}: {word:08X} is no {core} instruction{wider}");
    }
    if lacking.len() > NAMED {
        say!("and {} more", lacking.len() - NAMED);
    }
    let wider = match lacking.iter().filter(|lacking| line_of_42x(profile, lacking.word).is_some()).count() {
        0 => String::new(),
        count => format!("; a PPE 42X has {count} of them: --42x"),
    };
    say!("{} words, of which the {core} lacks {}{wider}", numbers::grouped(words as u64), lacking.len());
    !lacking.is_empty()
}

/// The line of a word that the core lacks and a 42X would have.
fn line_of_42x(profile: Profile, word: u32) -> Option<String> {
    profile.wider()?.disassemble(word).map(|line| line.text)
}
