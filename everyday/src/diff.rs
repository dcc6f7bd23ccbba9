//! `diff`: what two captures have that differs.

use crate::args::Diff;
use crate::capture::Capture;
use crate::changes;
use crate::profile::Profile;
use crate::registers;
use crate::say;
use std::process::ExitCode;

/// Status 0 if nothing differs, 1 if something does.
pub fn diff(profile: Profile, args: &Diff) -> Result<ExitCode, String> {
    let old = Capture::read(profile, &args.before)?;
    let new = Capture::read(profile, &args.after)?;
    let lines = changes::lines(&old.memory, &new.memory);
    let same_length = old.memory.len() == new.memory.len();
    let places = registers::changed(&old.state, &new.state);
    if places.is_empty() && lines.is_empty() && same_length {
        say!("no difference");
        return Ok(ExitCode::SUCCESS);
    }
    say!("registers that differ: {}", places.len());
    changes::show_registers(&old.state, &new.state, &places);
    if !same_length {
        say!("memory of {} bytes, old, and {}, new; what both have is compared", old.memory.len(), new.memory.len());
    }
    say!("lines of memory that differ: {}", lines.len());
    changes::show_memory(&old.memory, &new.memory, &lines);
    Ok(ExitCode::from(1))
}
