//! ./ppe42: one command, and what is wrong in a sentence.

use clap::Parser;
use everyday::args::{Command, What};
use everyday::profile::Profile;
use everyday::{asm, complain, diff, gdb, list, make, run, show, srec, trace};
use std::process::ExitCode;

fn main() -> ExitCode {
    let Command { what, is_42x } = Command::parse();
    let profile = Profile::of(is_42x);
    let done = match what {
        What::Make(args) => make::make(profile, &args),
        What::Show(args) => show::show(profile, &args),
        What::List(args) => list::list(profile, &args),
        What::Run(args) => run::run(profile, &args),
        What::Trace(args) => trace::trace(profile, &args),
        What::Diff(args) => diff::diff(profile, &args),
        What::Srec(args) => srec::srec(profile, &args),
        What::Asm(args) => asm::asm(profile, &args),
        What::Gdb(args) => gdb::gdb(profile, &args),
    };
    done.unwrap_or_else(|wrong| {
        complain!("{wrong}");
        ExitCode::from(2)
    })
}
