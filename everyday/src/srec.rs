//! `srec`: the memory of a capture as S-records.

use crate::args::Srec;
use crate::capture::Capture;
use crate::files;
use crate::library;
use crate::numbers::grouped;
use crate::profile::Profile;
use crate::refusals;
use crate::say;
use std::process::ExitCode;

pub fn srec(profile: Profile, args: &Srec) -> Result<ExitCode, String> {
    let out = args.out.display();
    if files::same(&args.capture, &args.out) {
        return Err(format!("{out} is the capture itself; name another file"));
    }
    let capture = Capture::read(profile, &args.capture)?;
    let file = library::srec_write(&capture.memory).map_err(|refusal| refusals::of_start(refusal, &capture))?;
    files::write(&args.out, &file)?;
    let lines = grouped(file.iter().filter(|&&byte| byte == b'\n').count() as u64);
    say!("wrote {out}: {lines} lines, memory {} bytes; the registers are not in it", capture.memory.len());
    Ok(ExitCode::SUCCESS)
}
