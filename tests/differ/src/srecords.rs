//! Files of S-records: read into lent memory, good and mutilated, and written from it and read back.

use crate::report::{answers, buffers, Difference};
use draw::srecords::{draw_file, draw_length};
use draw::Urn;
use linked::Library;
use std::collections::BTreeMap;
use std::fmt;

/// How many bytes of a file are shown.
const SHOWN: usize = 4096;

/// What the files and the writes came to, so that a reader can see it.
#[derive(Default)]
pub struct Tally {
    files: BTreeMap<u64, u64>,
    writes: BTreeMap<u64, u64>,
}

impl fmt::Display for Tally {
    fn fmt(&self, f: &mut fmt::Formatter) -> fmt::Result {
        let files: u64 = self.files.values().sum();
        let writes: u64 = self.writes.values().sum();
        writeln!(f, "{files} files, {} accepted", self.files.get(&0).unwrap_or(&0))?;
        writeln!(f, "files by refusal, 0 for none: {}", list(&self.files))?;
        writeln!(f, "{writes} writes, those that wrote read back")?;
        write!(f, "writes by refusal: {}", list(&self.writes))
    }
}

fn list(counts: &BTreeMap<u64, u64>) -> String {
    counts.iter().map(|(number, count)| format!("{number}: {count}")).collect::<Vec<_>>().join(", ")
}

/// A file read, and a memory written.
pub fn compare(library: &Library, urn: &mut Urn, tally: &mut Tally) -> Result<(), Difference> {
    compare_read(library, urn, tally)?;
    compare_write(library, urn, tally)
}

fn draw_memory(urn: &mut Urn) -> Vec<u8> {
    let mut memory = vec![0; draw_length(urn)];
    urn.fill(&mut memory);
    memory
}

fn compare_read(library: &Library, urn: &mut Urn, tally: &mut Tally) -> Result<(), Difference> {
    let lent = draw_memory(urn);
    let file = draw_file(urn, lent.len());
    let (mut expected, mut given) = (lent.clone(), lent.clone());
    let (answer, theirs) = (second::srec_read(&mut expected, &file), (library.srec_read)(&mut given, &file));
    *tally.files.entry(answer >> 32).or_default() += 1;
    // A refusal changes nothing, whatever the second implementation did.
    if answer >> 32 != 0 {
        expected = lent;
    }
    if answer == theirs && expected == given {
        return Ok(());
    }
    let what = format!("file {} read into {} bytes", shown(&file), given.len());
    let lines = vec![format!("expected {}, given {}", told(answer), told(theirs))];
    Err(Difference::told(&what, [lines, buffers("memory", &expected, &given)].concat()))
}

fn told(answer: u64) -> String {
    format!("refusal {} line {}", answer >> 32, answer as u32)
}

/// The file, or the start of one that is too long to show.
fn shown(file: &[u8]) -> String {
    let (start, rest) = file.split_at(file.len().min(SHOWN));
    let more = if rest.is_empty() { String::new() } else { format!(" and {} bytes more", rest.len()) };
    format!("\"{}\"{more}", start.escape_ascii())
}

fn compare_write(library: &Library, urn: &mut Urn, tally: &mut Tally) -> Result<(), Difference> {
    let memory = draw_memory(urn);
    let out = vec![urn.word() as u8; draw_output(urn, memory.len())];
    let (mut expected, mut given) = (out.clone(), out.clone());
    let (answer, theirs) = (second::srec_write(&memory, &mut expected), (library.srec_write)(&memory, &mut given));
    *tally.writes.entry(answer >> 32).or_default() += 1;
    if answer >> 32 != 0 {
        expected = out;
    }
    if answer != theirs || expected != given {
        let what = format!("memory of {} bytes written to {} bytes", memory.len(), given.len());
        return Err(Difference::told(&what, [answers(answer, theirs), buffers("byte", &expected, &given)].concat()));
    }
    match answer >> 32 {
        0 => compare_again(library, &memory, &given[..answer as usize]),
        _ => Ok(()),
    }
}

/// An output that is just long enough, longer, too short by one byte or by any number of them.
fn draw_output(urn: &mut Urn, length: usize) -> usize {
    let wanted = 79 * (length / 32) + 15;
    match urn.below(10) {
        0 => urn.below(wanted as u32) as usize,
        1..=2 => wanted - 1,
        3..=5 => wanted + 1 + urn.below(100) as usize,
        _ => wanted,
    }
}

/// What was written gives the memory back, whatever stood in the memory that it is read into.
fn compare_again(library: &Library, memory: &[u8], file: &[u8]) -> Result<(), Difference> {
    let mut given: Vec<u8> = memory.iter().map(|byte| !byte).collect();
    let answer = (library.srec_read)(&mut given, file);
    if answer == 0 && given == memory {
        return Ok(());
    }
    let what = format!("written file {} read back into {} bytes", shown(file), memory.len());
    let lines = vec![format!("expected {}, given {}", told(0), told(answer))];
    Err(Difference::told(&what, [lines, buffers("memory", memory, &given)].concat()))
}
