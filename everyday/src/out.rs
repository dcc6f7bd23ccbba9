//! Standard output and standard error. A reader that goes away, as `head` does, changes nothing else: what was asked for is
//! done, but for lines that nobody reads, and the exit status is as it would have been for what was done.

use std::fmt::Arguments;
use std::io::{self, ErrorKind, Write};

/// A line.
#[macro_export]
macro_rules! say {
    ($($part:tt)*) => { $crate::out::line(format_args!($($part)*)) };
}

/// What is wrong, on standard error.
#[macro_export]
macro_rules! complain {
    ($($part:tt)*) => { $crate::out::complaint(format_args!($($part)*)) };
}

/// Whether somebody still reads.
pub fn line(line: Arguments) -> bool {
    match writeln!(io::stdout(), "{line}") {
        Ok(()) => true,
        Err(error) if error.kind() == ErrorKind::BrokenPipe => false,
        Err(error) => {
            complain!("cannot write what was asked for: {error}; see that there is room for it");
            std::process::exit(2)
        }
    }
}

pub fn complaint(sentence: Arguments) {
    // where this fails too, the exit status still tells
    let _ = writeln!(io::stderr(), "ppe42: {sentence}");
}
