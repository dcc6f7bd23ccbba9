//! Files of S-records: which are meant as such, where their program starts, and what is wrong with one that was refused.
//! Refusal and line are the library's; the reason is looked for here.

use crate::excerpt;
use crate::firmware;
use crate::library::{RefusedLine, MOST};
use crate::record::{address_bytes, Record, Wrong, ADDRESS, TYPE};
use crate::refusals;

/// Whether a file begins as S-records do, or is text at all.
pub fn is_meant(file: &[u8]) -> bool {
    begins(file) || !file.is_empty() && is_text(file)
}

/// Whether nothing but S-records can be meant.
pub fn is_surely(file: &[u8]) -> bool {
    begins(file) && is_text(file)
}

fn begins(file: &[u8]) -> bool {
    matches!(file, [b'S' | b's', b'0'..=b'9', ..])
}

fn is_text(file: &[u8]) -> bool {
    file.iter().all(|byte| matches!(byte, b' '..=b'~' | b'\t' | b'\r' | b'\n'))
}

/// The address of the last line, which in a file that the library has read is the end record.
pub fn entry(file: &[u8]) -> u32 {
    let end = lines(file).next_back().and_then(|line| Record::of(text(line)).ok());
    end.map_or(0, |end| end.address as u32)
}

/// The line, the refusal, what is wrong, and the line's text.
pub fn sentence(file: &[u8], lent: usize, refused: RefusedLine) -> String {
    let RefusedLine { refusal, line: number } = refused;
    let wrong = reason(file, lent, refused).unwrap_or_else(|| Wrong::whole(refusals::of_record(refusal)));
    let shown = match (line(file, number).map(text), wrong.column) {
        (None | Some([]), _) => String::new(),
        (Some(line), None) => format!("\n{}", excerpt::begun(line)),
        (Some(line), Some(column)) => format!("\n{}", excerpt::pointed(line, column)),
    };
    format!("line {number}: refusal {refusal}: {}{shown}", wrong.sentence)
}

/// Why a line was refused with this number, if that can be seen.
fn reason(file: &[u8], lent: usize, refused: RefusedLine) -> Option<Wrong> {
    let (number, line) = (refused.line, line(file, refused.line));
    match (refused.refusal, line) {
        (13, Some(line)) => no_record_here(file, number, line),
        (14, Some(line)) => outside(file, lent, &Record::of(text(line)).ok()?),
        (15, Some(line)) => twice(file, number, &Record::of(text(line)).ok()?),
        (16, Some(line)) => wrong_end(file, number, &Record::of(text(line)).ok()?),
        (16, None) => no_end(file),
        (17, Some(line)) => wrong_count(file, number, &Record::of(text(line)).ok()?),
        _ => None,
    }
}

fn lines(file: &[u8]) -> impl DoubleEndedIterator<Item = &[u8]> {
    file.split_inclusive(|&byte| byte == b'\n')
}

fn line(file: &[u8], number: usize) -> Option<&[u8]> {
    lines(file).nth(number.checked_sub(1)?)
}

/// A line without its end.
fn text(line: &[u8]) -> &[u8] {
    let line = line.strip_suffix(b"\n").unwrap_or(line);
    line.strip_suffix(b"\r").unwrap_or(line)
}

/// The records of a file with the numbers of their lines.
fn records(file: &[u8]) -> impl Iterator<Item = (usize, Record)> + '_ {
    (1..).zip(lines(file)).filter_map(|(number, line)| Some((number, Record::of(text(line)).ok()?)))
}

/// Those before a line.
fn before(file: &[u8], number: usize) -> impl Iterator<Item = (usize, Record)> + '_ {
    records(file).take_while(move |&(earlier, _)| earlier < number)
}

fn data_before(file: &[u8], number: usize) -> impl Iterator<Item = (usize, Record)> + '_ {
    before(file, number).filter(|(_, record)| record.is_data())
}

/// Refusal 13: by itself the line is no record, or it is one that cannot stand here.
fn no_record_here(file: &[u8], number: usize, line: &[u8]) -> Option<Wrong> {
    if let Some((end, _)) = before(file, number).find(|(_, record)| record.is_end()) {
        return Some(Wrong::whole(format!("line {end} is the end record, and no line follows it; take this one out")));
    }
    if text(line).iter().all(|byte| b" \t".contains(byte)) {
        return Some(Wrong::whole("a blank line is no record; take it out"));
    }
    match (Record::of(text(line)), line.ends_with(b"\n")) {
        (Ok(record), true) => other_type(file, number, &record),
        (Ok(_), false) => Some(Wrong::whole("the last line has no line feed at its end; add one")),
        (Err(wrong), false) if wrong.column == Some(text(line).len()) => {
            let sentence = format!("{}; the file breaks off here: have it sent again, whole", wrong.sentence);
            Some(Wrong { sentence, ..wrong })
        }
        (Err(wrong), _) => Some(wrong),
    }
}

fn other_type(file: &[u8], number: usize, record: &Record) -> Option<Wrong> {
    let (first, data) = data_before(file, number).next()?;
    if !record.is_data() || record.kind == data.kind {
        return None;
    }
    let (name, others) = (record.name(), data.name());
    Some(Wrong::at(
        TYPE,
        format!("an {name} among data that line {first} began as {others}; write all of them as one type"),
    ))
}

/// Refusal 14.
fn outside(file: &[u8], lent: usize, record: &Record) -> Option<Wrong> {
    let (first, end) = (record.address, record.end());
    if !record.is_data() || record.bytes == 0 || end <= lent as u64 {
        return None;
    }
    let told = format!("its bytes are for {first:08X} to {:08X}", end - 1);
    let more = firmware::more(wanted_memory(file, end));
    Some(Wrong::at(ADDRESS, format!("{told}, and the memory of {lent} bytes ends at {:08X}; {more}", lent - 1)))
}

/// Bytes of memory that hold a record of this end, and all others that a memory can hold.
fn wanted_memory(file: &[u8], end: u64) -> u64 {
    let data = records(file).filter(|(_, record)| record.is_data() && record.bytes > 0);
    let lendable = data.map(|(_, record)| record.end()).filter(|&end| end <= MOST as u64);
    lendable.max().unwrap_or(end).max(end)
}

/// Refusal 15: the first of its bytes that has been named.
fn twice(file: &[u8], number: usize, record: &Record) -> Option<Wrong> {
    let shared = |(line, data): (usize, Record)| {
        let first = data.address.max(record.address);
        (first < data.end().min(record.end())).then_some((first, line))
    };
    let (byte, line) = data_before(file, number).filter_map(shared).min().filter(|_| record.is_data())?;
    let column = ADDRESS + 2 * (address_bytes(record.kind) + (byte - record.address) as usize);
    Some(Wrong::at(column, format!("line {line} has named byte {byte:08X} already; take one of them out")))
}

/// Refusal 16 of a line that there is.
fn wrong_end(file: &[u8], number: usize, record: &Record) -> Option<Wrong> {
    let (first, data) = data_before(file, number).next()?;
    let (name, others, wanted) = (record.name(), data.name(), data.wanted_end());
    if !record.is_end() || name == wanted {
        return None;
    }
    Some(Wrong::at(
        TYPE,
        format!("the data are {others}, from line {first} on, and end in an {wanted}; this is an {name}"),
    ))
}

/// Refusal 16 of the line after the last.
fn no_end(file: &[u8]) -> Option<Wrong> {
    if records(file).any(|(_, record)| record.is_end()) {
        return None;
    }
    let ends = match data_before(file, usize::MAX).next() {
        Some((_, data)) => format!("{} data end in an {}", data.name(), data.wanted_end()),
        None => "a file ends in an S9, S8 or S7".into(),
    };
    Some(Wrong::whole(format!("the file has no end record, and {ends}; have it sent again, whole")))
}

/// Refusal 17: what an S5 has for an address is its count.
fn wrong_count(file: &[u8], number: usize, record: &Record) -> Option<Wrong> {
    let found = data_before(file, number).count() as u64;
    if record.kind != b'5' || record.address == found {
        return None;
    }
    let told = record.address;
    Some(Wrong::at(ADDRESS, format!("its count is {told}, and the number of data records before it is {found}")))
}

#[cfg(test)]
mod tests {
    use super::*;
    use crate::excerpt::readable;
    use crate::library::{self, BLOCK};
    use crate::profile::Profile;

    /// Numbers that look random, the same in every run.
    struct Draw(u64);

    impl Draw {
        fn below(&mut self, most: usize) -> usize {
            self.0 ^= self.0 << 13;
            self.0 ^= self.0 >> 7;
            self.0 ^= self.0 << 17;
            (self.0 % most as u64) as usize
        }

        fn of<T: Copy>(&mut self, things: &[T]) -> T {
            things[self.below(things.len())]
        }
    }

    /// A right record with its line end.
    fn written(kind: u8, address: u32, data: &[u8]) -> Vec<u8> {
        let width = address_bytes(kind);
        let mut bytes = vec![(width + data.len() + 1) as u8];
        bytes.extend(&address.to_be_bytes()[4 - width..]);
        bytes.extend(data);
        bytes.push(!bytes.iter().fold(0u8, |sum, &byte| sum.wrapping_add(byte)));
        let digits: String = bytes.iter().map(|byte| format!("{byte:02X}")).collect();
        format!("S{}{digits}\n", char::from(kind)).into_bytes()
    }

    /// Records one after the other, each right by itself, in a file that need not be.
    fn drawn(draw: &mut Draw, lent: usize) -> Vec<Vec<u8>> {
        let data = draw.of(b"123");
        let mut counted = 0;
        let mut lines = Vec::new();
        for _ in 0..draw.below(9) {
            let bytes: Vec<u8> = (0..draw.below(6)).map(|_| draw.below(256) as u8).collect();
            let far = draw.of(&[0, 0xFFFF, 0xF_FFFC, 0x10_0000, 0xFFFF_FFFE]);
            let kind = if draw.below(20) == 0 { draw.of(b"123") } else { data };
            lines.push(match draw.below(12) {
                0 => written(b'0', far, &bytes),
                1 => written(b'5', counted + u32::from(draw.below(3) == 0), &[]),
                2 => written(kind, far, &bytes[..bytes.len().min(draw.below(4))]),
                _ => written(kind, draw.below(lent) as u32, &bytes),
            });
            counted += u32::from(matches!(lines[lines.len() - 1][1], b'1'..=b'3'));
        }
        let end = if draw.below(6) == 0 { draw.of(b"789") } else { b'1' + b'9' - data };
        if draw.below(8) > 0 {
            lines.push(written(end, draw.below(1 << 16) as u32, &[]));
        }
        lines
    }

    /// Lines changed in a byte, cut, doubled, taken out, put elsewhere, or put in.
    fn mutilate(lines: &mut Vec<Vec<u8>>, draw: &mut Draw) {
        lines.retain(|line| !line.is_empty());
        if lines.is_empty() {
            let alone = [&b"\n"[..], b"S\n", b"S1\n", b"S90\n", b"S90", b" \t\r\n", b":00000001FF\n"];
            return lines.push(draw.of(&alone).to_vec());
        }
        let k = draw.below(lines.len());
        let column = draw.below(lines[k].len());
        let byte = draw.of(b"0123456789ABCDEFafSs:GZ \t\r\n\0\xFF");
        let other = draw.below(lines.len());
        match draw.below(9) {
            0 => lines[k].truncate(column),
            1 => lines[k].insert(column, byte),
            2 => drop(lines[k].remove(column)),
            3 => drop(lines.remove(k)),
            4 => lines.insert(other, lines[k].clone()),
            5 => lines.swap(k, other),
            6 => lines.insert(other, b"\r\n".to_vec()),
            7 => lines[k] = [text(&lines[k]), b"\r\n"].concat(),
            _ => lines[k][column] = byte,
        }
    }

    /// Files of all kinds with the memory that they are read into; every third as it was drawn.
    fn files() -> Vec<(usize, Vec<u8>)> {
        let mut draw = Draw(0x9E37_79B9_7F4A_7C15);
        let mut files = Vec::new();
        for k in 0..60_000 {
            let lent = BLOCK * (1 + draw.below(3));
            let mut lines = drawn(&mut draw, lent);
            for _ in 0..[0, 1, 3][k % 3] {
                mutilate(&mut lines, &mut draw);
            }
            files.push((lent, lines.concat()));
        }
        files
    }

    fn refused(lent: usize, file: &[u8]) -> Option<RefusedLine> {
        library::srec_read(&mut vec![0; lent], file).err()
    }

    /// What is said of a file that is refused, and the refusal.
    fn told() -> impl Iterator<Item = (usize, Vec<u8>, RefusedLine, Wrong)> {
        files().into_iter().filter_map(|(lent, file)| {
            let refused = refused(lent, &file)?;
            let wrong = reason(&file, lent, refused);
            let wrong = wrong.unwrap_or_else(|| panic!("{refused:?}: {}", String::from_utf8_lossy(&file)));
            Some((lent, file, refused, wrong))
        })
    }

    /// Each reason by a part of its sentence.
    const REASONS: [(u32, &str); 23] = [
        (13, "does not begin with S"),
        (13, "must be upper-case"),
        (13, "Intel HEX"),
        (13, "there is no type S"),
        (13, "ends before its type"),
        (13, "ends before its count"),
        (13, "is no hex digit"),
        (13, "and the count wants two"),
        (13, "and that of an S"),
        (13, "digits after it"),
        (13, "has no data"),
        (13, "the check byte is"),
        (13, "among data"),
        (13, "is the end record"),
        (13, "a blank line"),
        (13, "has no line feed"),
        (13, "breaks off here"),
        (14, "lend more"),
        (14, "link it lower"),
        (15, "has named byte"),
        (16, "no end record"),
        (16, "this is an"),
        (17, "the number of data records"),
    ];

    #[test]
    fn every_refusal_has_its_reason() {
        let mut seen = [0; REASONS.len()];
        for (lent, file, refused, wrong) in told() {
            let known: Vec<usize> = (0..REASONS.len()).filter(|&k| wrong.sentence.contains(REASONS[k].1)).collect();
            let fits = !known.is_empty() && known.iter().all(|&k| REASONS[k].0 == refused.refusal);
            assert!(fits, "{refused:?}: {}", wrong.sentence);
            known.iter().for_each(|&k| seen[k] += 1);
            assert!(sentence(&file, lent, refused).contains(&wrong.sentence));
        }
        assert!(seen.iter().all(|&times| times >= 10), "{seen:?}");
    }

    /// So that where the library would refuse what seems right here, its number alone speaks.
    #[test]
    fn a_right_line_has_no_reason() {
        let right: Vec<_> = files().into_iter().filter(|(lent, file)| refused(*lent, file).is_none()).collect();
        assert!(right.len() > 1000, "{}", right.len());
        for (lent, file) in right {
            for (refusal, line) in (1..=lines(&file).count() + 1).flat_map(|line| (13..=17).map(move |k| (k, line))) {
                let refused = RefusedLine { refusal, line };
                assert!(reason(&file, lent, refused).is_none(), "{refused:?}: {}", String::from_utf8_lossy(&file));
                let general = format!("line {line}: refusal {refusal}: {}", refusals::of_record(refusal));
                assert!(sentence(&file, lent, refused).starts_with(&general));
            }
        }
    }

    /// The library is asked about each line alone.
    #[test]
    fn a_line_is_a_record_if_the_library_takes_it_for_one() {
        for (lent, file) in files() {
            for line in lines(&file).map(text) {
                let alone = refused(lent, &[line, b"\r\n"].concat());
                let is_record = alone != Some(RefusedLine { refusal: 13, line: 1 });
                assert_eq!(Record::of(line).is_ok(), is_record, "{}", readable(line));
            }
        }
    }

    #[test]
    fn a_wanted_check_byte_is_taken() {
        let mut mended = 0;
        for (lent, file, refused_line, wrong) in told() {
            let Some((_, wanted)) = wrong.sentence.split_once("the line's bytes want ") else { continue };
            let line = text(line(&file, refused_line.line).unwrap());
            let line = [&line[..line.len() - 2], &wanted.as_bytes()[..2], b"\n"].concat();
            assert!(refused(lent, &line) != Some(RefusedLine { refusal: 13, line: 1 }), "{}", readable(&line));
            mended += 1;
        }
        assert!(mended > 100, "{mended}");
    }

    #[test]
    fn wanted_memory_is_enough() {
        for (_, file, before, wrong) in told() {
            let Some((_, wanted)) = wrong.sentence.split_once("--memory ") else { continue };
            let after = refused(wanted.parse().unwrap(), &file);
            assert!(!after.is_some_and(|after| after.line <= before.line && after.refusal == 14), "{}", wrong.sentence);
        }
    }

    /// The byte that is said to be named twice, and the line that is said to have named it.
    fn named(sentence: &str) -> (usize, u32) {
        let words: Vec<&str> = sentence.split(' ').collect();
        (words[1].parse().unwrap(), u32::from_str_radix(words[5], 16).unwrap())
    }

    #[test]
    fn a_byte_named_twice_is_the_first_one_and_its_line_named_it() {
        let mut seen = 0;
        for (lent, file, refusal, wrong) in told().filter(|(_, _, refused, _)| refused.refusal == 15) {
            let (earlier, byte) = named(&wrong.sentence);
            let lines: Vec<&[u8]> = lines(&file).collect();
            let twice = |first: &[u8], second: &[u8]| {
                refused(lent, &[first, second].concat()) == Some(RefusedLine { refusal: 15, line: 2 })
            };
            let (first, second) = (lines[earlier - 1], lines[refusal.line - 1]);
            let one = |byte: u32| written(first[1], byte, &[0]);
            assert!(twice(first, &one(byte)) && twice(second, &one(byte)), "{}", wrong.sentence);
            let data = || lines[..refusal.line - 1].iter().filter(|line| matches!(line[1], b'1'..=b'3'));
            let below = (0..byte).filter(|&below| twice(second, &one(below)));
            assert!(below.clone().all(|below| !data().any(|line| twice(line, &one(below)))), "{}", wrong.sentence);
            seen += below.count();
        }
        assert!(seen > 100, "{seen}");
    }

    /// So no program is taken for S-records by its first bytes.
    #[test]
    fn no_instruction_begins_as_records_do() {
        for first in [0x5330_0000..0x533A_0000, 0x7330_0000..0x733A_0000].into_iter().flatten() {
            assert!(Profile::BOTH.iter().all(|profile| !profile.legal(first)), "{first:08X}");
        }
    }
}
