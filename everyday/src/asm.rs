//! `asm`: lines of assembly to words.

use crate::args::Asm;
use crate::excerpt;
use crate::files;
use crate::library::Refused;
use crate::profile::Profile;
use crate::wanted;
use crate::{complain, say};
use std::io::{self, BufRead, BufReader, IsTerminal, Read};
use std::path::Path;
use std::process::ExitCode;

/// Bytes of a line that are kept; what the library answers to a longer one does not hang on the rest.
const KEPT: usize = 65_536;

const WHAT: &str = "a file of lines";

/// Status 1 if a line was refused.
pub fn asm(profile: Profile, args: &Asm) -> Result<ExitCode, String> {
    let file = args.file.as_deref().filter(|file| *file != Path::new("-"));
    let mut input = open(file)?;
    let source = file.map_or(String::new(), |file| format!("{}, ", file.display()));
    let mut status = ExitCode::SUCCESS;
    for number in 1u64.. {
        let read = next(&mut input).map_err(|error| unreadable(file, &error))?;
        if read.is_empty() {
            break;
        }
        let line = text(&read, number == 1);
        if is_blank(line) {
            continue;
        }
        match profile.assemble(line) {
            Ok(word) => {
                // where nobody reads on, an endless input would be read for nothing
                if !say!("{word:08X}") {
                    break;
                }
            }
            Err(refused) => {
                status = ExitCode::from(1);
                complain!("{source}line {number}, {}", shown(profile, line, refused));
            }
        }
    }
    Ok(status)
}

fn open(file: Option<&Path>) -> Result<Box<dyn BufRead>, String> {
    let Some(file) = file else {
        if io::stdin().is_terminal() {
            complain!("write a line, and its word comes; Ctrl-D ends");
        }
        return Ok(Box::new(io::stdin().lock()));
    };
    Ok(Box::new(BufReader::new(files::open(file, WHAT)?)))
}

fn unreadable(file: Option<&Path>, error: &io::Error) -> String {
    files::unreadable(file.unwrap_or(Path::new("standard input")), error, WHAT)
}

/// The next line with its end, or nothing; of a very long one the first bytes.
fn next(input: &mut dyn BufRead) -> io::Result<Vec<u8>> {
    let line = piece(input)?;
    let mut last = line.len() < KEPT || line.ends_with(b"\n");
    while !last {
        let rest = piece(input)?;
        last = rest.len() < KEPT || rest.ends_with(b"\n");
    }
    Ok(line)
}

fn piece(input: &mut dyn BufRead) -> io::Result<Vec<u8>> {
    let mut piece = Vec::new();
    input.take(KEPT as u64).read_until(b'\n', &mut piece)?;
    Ok(piece)
}

/// The line itself: without its end, as any system writes it, and without the mark that some editors begin a file with.
fn text(read: &[u8], first: bool) -> &[u8] {
    let line = read.strip_suffix(b"\n").unwrap_or(read);
    let line = line.strip_suffix(b"\r").unwrap_or(line);
    line.strip_prefix("\u{FEFF}".as_bytes()).filter(|_| first).unwrap_or(line)
}

fn is_blank(line: &[u8]) -> bool {
    line.len() < KEPT && line.iter().all(|byte| b" \t".contains(byte))
}

/// Column, number, what is wrong, and the line with a caret under the column.
fn shown(profile: Profile, line: &[u8], refused: Refused) -> String {
    let (column, number) = (refused.column, refused.refusal);
    let why = wanted::sentence(profile, line, refused);
    format!("column {column}: refusal {number}: {why}\n{}", excerpt::pointed(line, column))
}
