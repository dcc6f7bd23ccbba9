//! That the comparison of files of S-records can fail: each library below has one flaw, and each is caught.

use differ::srecords::{compare, Tally};
use draw::Urn;
use linked::{Library, LINKED};
use second::{srec_read, srec_write};
use std::cell::Cell;

const FILES: u64 = 50_000;

fn caught(library: &Library) -> bool {
    (0..FILES).any(|file| compare(library, &mut Urn::of_case(7, file), &mut Tally::default()).is_err())
}

const fn refusal(number: u64, line: usize) -> u64 {
    number << 32 | line as u64
}

/// What a line says, as far as it is a record, whatever its check byte and its count.
struct Record {
    kind: u8,
    address: u32,
    data: Vec<u8>,
    /// All that it names, from the count to the check byte.
    bytes: Vec<u8>,
}

impl Record {
    fn of(line: &[u8]) -> Option<Record> {
        let text = std::str::from_utf8(line).ok()?.strip_suffix('\n')?;
        let text = text.strip_suffix('\r').unwrap_or(text).strip_prefix('S')?;
        let kind = text.get(..1)?.parse().ok()?;
        let byte = |at: usize| u8::from_str_radix(text.get(at..at + 2)?, 16).ok();
        let bytes: Vec<u8> = (1..text.len()).step_by(2).map(byte).collect::<Option<_>>()?;
        let (address, rest) = bytes.get(1..)?.split_at_checked(width(kind))?;
        let address = address.iter().fold(0, |address, byte| address << 8 | *byte as u32);
        let data = rest.split_last()?.1.to_vec();
        Some(Record { kind, address, data, bytes })
    }

    fn is_checked(&self) -> bool {
        sum(&self.bytes) == 0xFF
    }

    fn is_data(&self) -> bool {
        matches!(self.kind, 1..=3)
    }

    fn is_end(&self) -> bool {
        matches!(self.kind, 7..=9)
    }

    /// One past its last byte.
    fn end(&self) -> usize {
        self.address as usize + self.data.len()
    }
}

/// A right line.
fn written(kind: u8, address: u32, data: &[u8]) -> Vec<u8> {
    let address = &address.to_be_bytes()[4 - width(kind)..];
    let bytes = [&[(address.len() + data.len() + 1) as u8], address, data].concat();
    let digits: String = bytes.iter().chain(&[!sum(&bytes)]).map(|byte| format!("{byte:02X}")).collect();
    format!("S{kind}{digits}\n").into_bytes()
}

fn sum(bytes: &[u8]) -> u8 {
    bytes.iter().fold(0, |sum, byte| sum.wrapping_add(*byte))
}

fn width(kind: u8) -> usize {
    match kind {
        2 | 6 | 8 => 3,
        3 | 7 => 4,
        _ => 2,
    }
}

fn lines(file: &[u8]) -> Vec<Vec<u8>> {
    file.split_inclusive(|byte| *byte == b'\n').map(<[u8]>::to_vec).collect()
}

fn records(lines: &[Vec<u8>]) -> impl Iterator<Item = Record> + '_ {
    lines.iter().filter_map(|line| Record::of(line))
}

/// A refused line, with the lines before it and the length of memory.
struct Refused<'a> {
    number: u64,
    line: &'a [u8],
    before: &'a [Vec<u8>],
    memory: usize,
}

impl Refused<'_> {
    /// The record, where the refusal is this one.
    fn record(&self, number: u64) -> Option<Record> {
        Record::of(self.line).filter(|_| self.number == number)
    }

    /// The type of the data records before it.
    fn data_type(&self) -> Option<u8> {
        records(self.before).find(Record::is_data).map(|record| record.kind)
    }

    fn data_records(&self) -> u32 {
        records(self.before).filter(Record::is_data).count() as u32
    }
}

/// What a flawed reader takes a refused line for: another line, or nothing where it is empty.
type Takes = fn(&Refused) -> Option<Vec<u8>>;

/// Reads as the second implementation does, but for the refused lines that are taken for others.
fn read_taking(takes: Takes, memory: &mut [u8], file: &[u8]) -> u64 {
    let mut lines = lines(file);
    loop {
        let answer = srec_read(memory, &lines.concat());
        let (number, at) = (answer >> 32, (answer as u32).wrapping_sub(1) as usize);
        let before = &lines[..at.min(lines.len())];
        let taken = lines.get(at).and_then(|line| takes(&Refused { number, line, before, memory: memory.len() }));
        match taken {
            Some(line) => lines[at] = line,
            None => return answer,
        }
        lines.retain(|line| !line.is_empty());
    }
}

const TAKEN_WRONGLY: [(&str, Takes); 25] = [
    ("a byte is named twice", |refused| Some(written(refused.record(15)?.kind, 0, &[]))),
    ("types are mixed", |refused| {
        let (record, kind) = (refused.record(13)?, refused.data_type()?);
        let mixed = record.is_data() && record.is_checked() && record.kind != kind;
        mixed.then(|| written(kind, record.address, &record.data))
    }),
    ("an end is of another type", |refused| refused.record(16).and(Some(written(10 - refused.data_type()?, 0, &[])))),
    ("an end has data", |refused| unloaded(refused.record(13).filter(Record::is_end)?)),
    ("an S5 has data", |refused| unloaded(refused.record(13).filter(|record| record.kind == 5)?)),
    ("an S5 counts one too many", |refused| {
        let right = refused.data_records();
        refused.record(17).filter(|record| record.address == right + 1).map(|_| written(5, right, &[]))
    }),
    ("an S5 counts 16 bits", |refused| {
        let right = refused.data_records() & 0xFFFF;
        refused.record(17).filter(|record| record.address == right).map(|_| written(0, 0, &[]))
    }),
    ("a line follows the end", |refused| records(refused.before).any(|record| record.is_end()).then(Vec::new)),
    ("an S0 has a wrong check byte", |refused| rechecked(refused.record(13).filter(|record| record.kind == 0)?)),
    ("an S5 has a wrong check byte", |refused| rechecked(refused.record(13).filter(|record| record.kind == 5)?)),
    ("an end has a wrong check byte", |refused| rechecked(refused.record(13).filter(Record::is_end)?)),
    ("a check byte leaves out the count", |refused| {
        rechecked(refused.record(13).filter(|record| sum(&record.bytes[1..]) == 0xFF)?)
    }),
    ("a count comes round", |refused| {
        let record = refused.record(13).filter(|record| record.is_checked() && record.data.len() > 255)?;
        Some(written(record.kind, record.address, &record.data[256..]))
    }),
    ("a byte stands at M", |refused| {
        let record = refused.record(14).filter(|record| record.end() == refused.memory + 1)?;
        Some(written(record.kind, record.address, record.data.split_last()?.1))
    }),
    ("an address comes round", |refused| {
        let record = refused.record(14).filter(|record| record.end() > u32::MAX as usize)?;
        Some(written(record.kind, 0, &[]))
    }),
    ("an S4", |refused| refused.line.starts_with(b"S4").then(|| written(0, 0, &[]))),
    ("an S6", |refused| refused.line.starts_with(b"S6").then(|| written(0, 0, &[]))),
    ("a lower-case s", |refused| Some([b"S", refused.line.strip_prefix(b"s")?].concat())),
    ("a space comes first", |refused| Some(refused.line.strip_prefix(b" ")?.to_vec())),
    ("a space comes last", |refused| Some([refused.line.strip_suffix(b" \n")?, b"\n"].concat())),
    ("two carriage returns", |refused| Some([refused.line.strip_suffix(b"\r\r\n")?, b"\n"].concat())),
    ("an empty line", |refused| (refused.line == b"\n").then(Vec::new)),
    ("an empty line with a carriage return", |refused| (refused.line == b"\r\n").then(Vec::new)),
    ("the last line has no line feed", |refused| match refused.line {
        [.., b'\n'] => None,
        line => Some([line, b"\n"].concat()),
    }),
    ("an address lacks a byte", |refused| refused.line.starts_with(b"S902").then(|| written(9, 0, &[]))),
];

fn unloaded(record: Record) -> Option<Vec<u8>> {
    let loaded = record.is_checked() && !record.data.is_empty();
    loaded.then(|| written(record.kind, record.address, &[]))
}

fn rechecked(record: Record) -> Option<Vec<u8>> {
    (!record.is_checked()).then(|| written(record.kind, record.address, &record.data))
}

/// Another refusal that a flawed reader gives for the line.
type Renumbers = fn(&Refused) -> Option<u64>;

fn read_renumbering(renumbers: Renumbers, memory: &mut [u8], file: &[u8]) -> u64 {
    let answer = srec_read(memory, file);
    let (lines, at) = (lines(file), (answer as u32).wrapping_sub(1) as usize);
    let Some(line) = lines.get(at) else {
        return answer;
    };
    let refused = Refused { number: answer >> 32, line, before: &lines[..at], memory: memory.len() };
    renumbers(&refused).map_or(answer, |number| refusal(number, at + 1))
}

const RENUMBERED: [(&str, Renumbers); 5] = [
    ("14 comes before 13", |refused| {
        refused.record(13).filter(|record| record.is_data() && record.end() > refused.memory).map(|_| 14)
    }),
    ("15 comes before 13", |refused| {
        let record = refused.record(13).filter(|record| record.is_data() && !record.data.is_empty())?;
        records(refused.before).any(|before| before.is_data() && before.address == record.address).then_some(15)
    }),
    ("15 comes before 14", |refused| {
        let record = refused.record(14)?;
        let names_it = |before: Record| before.is_data() && before.end() == record.address as usize + 1;
        records(refused.before).any(names_it).then_some(15)
    }),
    ("16 comes before 13", |refused| {
        let record = refused.record(13).filter(Record::is_end)?;
        refused.data_type().filter(|kind| record.kind != 10 - kind).map(|_| 16)
    }),
    ("17 comes before 13", |refused| {
        refused.record(13).filter(|record| record.kind == 5 && record.address != refused.data_records()).map(|_| 17)
    }),
];

/// Reads a file into memory.
type Read = fn(&mut [u8], &[u8]) -> u64;

const FLAWS: [(&str, Read); 15] = [
    ("a file is stored as it is read", |memory, file| {
        let answer = srec_read(memory, file);
        let before = lines(file)[..(answer as u32).saturating_sub(1) as usize].concat();
        for end in 7..=9 {
            srec_read(memory, &[before.clone(), written(end, 0, &[])].concat());
        }
        answer
    }),
    ("an S5 counts S0 as well", |memory, file| {
        let lines = lines(file);
        let counted = |at: usize| match Record::of(&lines[at]) {
            Some(record) if record.kind == 5 && record.is_checked() => {
                let headers = records(&lines[..at]).filter(|record| record.kind == 0).count() as u32;
                written(5, record.address.wrapping_sub(headers), &record.data)
            }
            _ => lines[at].clone(),
        };
        srec_read(memory, &(0..lines.len()).flat_map(counted).collect::<Vec<_>>())
    }),
    ("a record of no bytes is no data record", |memory, file| {
        let unnamed = |line: &Vec<u8>| match Record::of(line) {
            Some(record) if record.is_data() && record.is_checked() && record.data.is_empty() => written(0, 0, &[]),
            _ => line.clone(),
        };
        srec_read(memory, &lines(file).iter().flat_map(unnamed).collect::<Vec<_>>())
    }),
    ("malformed lines are looked for first", |memory, file| {
        let passed_over: Takes = |refused| (refused.number > 13).then(|| written(0, 0, &[]));
        match read_taking(passed_over, &mut memory.to_vec(), file) {
            answer if answer >> 32 == 13 => answer,
            _ => srec_read(memory, file),
        }
    }),
    ("lines are counted from 0", |memory, file| match srec_read(memory, file) {
        answer if answer >> 32 > 1 => answer - 1,
        answer => answer,
    }),
    ("a missing end counts as the last line", |memory, file| match srec_read(memory, file) {
        answer if answer == refusal(16, lines(file).len() + 1) => answer - 1,
        answer => answer,
    }),
    ("an end may be missing", |memory, file| match srec_read(memory, file) {
        answer if answer == refusal(16, lines(file).len() + 1) => 0,
        answer => answer,
    }),
    ("an empty file is read", |memory, file| if file.is_empty() { 0 } else { srec_read(memory, file) }),
    ("an S9 is the end where there is no data", |memory, file| {
        let lines = lines(file);
        let other_end = records(&lines).all(|record| !record.is_data() && record.kind != 9);
        match srec_read(memory, file) {
            0 if other_end => refusal(16, lines.len()),
            answer => answer,
        }
    }),
    ("an S1 ends at FFFF", |memory, file| {
        let over = |line: &Vec<u8>| Record::of(line).is_some_and(|record| record.kind == 1 && record.end() > 0x1_0000);
        match (srec_read(memory, file), lines(file).iter().position(over)) {
            (0, Some(at)) => refusal(14, at + 1),
            (answer, _) => answer,
        }
    }),
    ("lower-case hex is refused", |memory, file| {
        let unread = file.iter().map(|byte| if byte.is_ascii_lowercase() { b'?' } else { *byte });
        srec_read(memory, &unread.collect::<Vec<_>>())
    }),
    ("bytes that no record names are cleared", |memory, file| {
        let answer = srec_read(memory, file);
        if answer == 0 {
            memory.fill(0);
        }
        answer | srec_read(memory, file)
    }),
    ("a memory of 48 bytes is lent", |memory, file| match memory.len() {
        48 => srec_read(&mut memory[..32], file),
        _ => srec_read(memory, file),
    }),
    ("a memory over 1,048,576 bytes is lent", |memory, file| {
        let length = memory.len().min(1_048_576);
        srec_read(&mut memory[..length], file)
    }),
    ("a refused memory has a line", |memory, file| match srec_read(memory, file) {
        answer if answer == refusal(1, 0) => refusal(1, 1),
        answer => answer,
    }),
];

thread_local! {
    static TAKES: Cell<Takes> = const { Cell::new(|_| None) };
    static RENUMBERS: Cell<Renumbers> = const { Cell::new(|_| None) };
}

#[test]
fn flaws_of_taking_a_line() {
    let srec_read: Read = |memory, file| read_taking(TAKES.get(), memory, file);
    assert!(!caught(&Library { srec_read, ..LINKED }));
    for (name, takes) in TAKEN_WRONGLY {
        TAKES.set(takes);
        assert!(caught(&Library { srec_read, ..LINKED }), "{name}");
    }
}

#[test]
fn flaws_of_numbering_a_refusal() {
    let srec_read: Read = |memory, file| read_renumbering(RENUMBERS.get(), memory, file);
    assert!(!caught(&Library { srec_read, ..LINKED }));
    for (name, renumbers) in RENUMBERED {
        RENUMBERS.set(renumbers);
        assert!(caught(&Library { srec_read, ..LINKED }), "{name}");
    }
}

#[test]
fn flaws_of_reading() {
    for (name, srec_read) in FLAWS {
        assert!(caught(&Library { srec_read, ..LINKED }), "{name}");
    }
}

/// Writes memory to an output.
type Write = fn(&[u8], &mut [u8]) -> u64;

const WRITTEN_WRONGLY: [(&str, Write); 9] = [
    ("hex is lower-case", |memory, out| {
        let answer = srec_write(memory, out);
        out[..answer as u32 as usize].iter_mut().filter(|byte| **byte != b'S').for_each(u8::make_ascii_lowercase);
        answer
    }),
    ("the byte behind is cleared", |memory, out| {
        let answer = srec_write(memory, out);
        out.iter_mut().skip(answer as u32 as usize).take((answer >> 32 == 0) as usize).for_each(|byte| *byte = 0);
        answer
    }),
    ("the end has the length of memory", |memory, out| {
        let answer = srec_write(memory, out);
        if answer >> 32 == 0 {
            out[answer as usize - 15..answer as usize].copy_from_slice(&written(7, memory.len() as u32, &[]));
        }
        answer
    }),
    ("the last bytes are lost", |memory, out| {
        let kept = memory.len().saturating_sub(32);
        srec_write(&[&memory[..kept], &vec![0; memory.len() - kept]].concat(), out)
    }),
    ("an output may be a byte too short", |memory, out| {
        let mut longer = [&*out, &[0]].concat();
        let answer = srec_write(memory, &mut longer);
        out.copy_from_slice(&longer[..out.len()]);
        answer
    }),
    ("an output must be a byte longer", |memory, out| match out.split_last_mut() {
        Some((_, shorter)) => srec_write(memory, shorter),
        None => srec_write(memory, out),
    }),
    ("a short output is cleared", |memory, out| {
        let answer = srec_write(memory, out);
        if answer == refusal(8, 0) {
            out.fill(0);
        }
        answer
    }),
    ("the output is looked at before memory", |memory, out| {
        if out.len() < 79 * (memory.len() / 32) + 15 {
            return refusal(8, 0);
        }
        srec_write(memory, out)
    }),
    ("a memory of 33 bytes is written", |memory, out| match memory.len() {
        33 => srec_write(&memory[..32], out),
        _ => srec_write(memory, out),
    }),
];

#[test]
fn flaws_of_writing() {
    for (name, srec_write) in WRITTEN_WRONGLY {
        assert!(caught(&Library { srec_write, ..LINKED }), "{name}");
    }
}

#[test]
fn the_second_implementation_agrees_with_itself() {
    assert!(!caught(&Library { srec_read, srec_write, ..LINKED }));
}
