//! Random files of S-records: good ones of every type with their records in any order, and mutilated ones. Lines and
//! check bytes are written apart from any reader of them.

use crate::urn::Urn;

/// The most bytes that lent memory may have.
const MOST: usize = 1_048_576;

/// Endings that spoil this line or the next. An empty one joins the two, and two line feeds make an empty line.
const BAD_ENDS: [&[u8]; 11] =
    [b"", b"", b"\r", b"\r\r\n", b" \n", b"\n ", b"\n\n", b"\n\r\n", b"\n\r", b"\t\r\n", b"\0\n"];

/// Bytes that mean something in a file, or nearly.
const LIKELY: &[u8] = b"SSs0123456789ABCDEFabcdefGg@`/: \t\r\n\0\x80";

/// How many things are wrong about records, and then about their lines.
const MUTILATIONS: [(u32, u32); 9] = [(0, 1), (1, 0), (1, 0), (2, 0), (2, 0), (3, 0), (1, 1), (1, 1), (2, 1)];

/// A record before it is written; the address of an S5 is its count.
#[derive(Clone)]
struct Record {
    kind: u8,
    address: u32,
    data: Vec<u8>,
}

impl Record {
    fn is_data(&self) -> bool {
        matches!(self.kind, 1..=3)
    }

    fn text(&self) -> Vec<u8> {
        let mut bytes = vec![0];
        bytes.extend(&self.address.to_be_bytes()[4 - width(self.kind)..]);
        bytes.extend(&self.data);
        bytes.push(0);
        recount(&mut bytes);
        recheck(&mut bytes);
        [&[b'S', b'0' + self.kind], &hex(&bytes)[..]].concat()
    }
}

/// Bytes of the address; S4 and S6, which are refused, are given some.
fn width(kind: u8) -> usize {
    match kind {
        2 | 6 | 8 => 3,
        3 | 7 => 4,
        _ => 2,
    }
}

/// The highest address that a type has.
fn top(kind: u8) -> u32 {
    u32::MAX >> (32 - 8 * width(kind))
}

/// The most data bytes that its count allows.
fn most_data(kind: u8) -> usize {
    254 - width(kind)
}

/// Writes the count of the bytes behind it, which for a line that is too long comes round.
fn recount(bytes: &mut [u8]) {
    if let Some((count, others)) = bytes.split_first_mut() {
        *count = others.len() as u8;
    }
}

fn recheck(bytes: &mut [u8]) {
    if let Some((check, others)) = bytes.split_last_mut() {
        *check = 255 - (others.iter().map(|byte| *byte as u32).sum::<u32>() % 256) as u8;
    }
}

fn hex(bytes: &[u8]) -> Vec<u8> {
    bytes.iter().flat_map(|byte| format!("{byte:02X}").into_bytes()).collect()
}

fn unhex(digits: &[u8]) -> Option<Vec<u8>> {
    let value = |digit: u8| (digit as char).to_digit(16);
    let byte = |pair: &[u8]| Some((value(pair[0])? * 16 + value(*pair.get(1)?)?) as u8);
    digits.chunks(2).map(byte).collect()
}

/// A line and what ends it.
struct Line {
    text: Vec<u8>,
    end: &'static [u8],
}

fn join(lines: &[Line]) -> Vec<u8> {
    lines.iter().flat_map(|line| [&line.text, line.end].concat()).collect()
}

/// A length of memory, mostly small and good.
pub fn draw_length(urn: &mut Urn) -> usize {
    match urn.below(4000) {
        0 => MOST,
        1 => urn.pick(&[MOST + 1, MOST + 31, MOST + 32]),
        // Where the addresses of an S1 end.
        2..=40 => urn.pick(&[65_536, 65_568, 65_568]),
        41..=155 => urn.pick(&[0, 1, 16, 31, 33, 48]),
        _ => urn.pick(&[32, 32, 64, 96, 128, 1024]),
    }
}

/// A file for so much memory, good or not.
pub fn draw_file(urn: &mut Urn, length: usize) -> Vec<u8> {
    match urn.below(10_000) {
        0..=1 => return draw_many(urn),
        2..=150 => return draw_bytes(urn),
        151..=1100 => return draw_good_file(urn, length),
        _ => {}
    }
    let mut records = draw_records(urn, length);
    let (wrong, spoilt) = urn.pick(&MUTILATIONS);
    let mut at = place(urn, records.len());
    for _ in 0..wrong {
        at = stay_or_go(urn, at, records.len());
        at = misplace(urn, &mut records, at, length);
    }
    let mut lines = write(urn, &records);
    for _ in 0..spoilt {
        at = stay_or_go(urn, at, lines.len());
        lines.iter_mut().skip(at).take(1).for_each(|line| spoil(urn, line));
    }
    let mut file = join(&lines);
    match urn.below(100) {
        0..=2 => file.truncate(place(urn, file.len())),
        // The last line feed.
        3..=4 => drop(file.pop()),
        _ => {}
    }
    file
}

/// A file that nothing is wrong with.
pub fn draw_good_file(urn: &mut Urn, length: usize) -> Vec<u8> {
    let records = draw_records(urn, length);
    join(&write(urn, &records))
}

/// One of so many places.
fn place(urn: &mut Urn, count: usize) -> usize {
    urn.below(count as u32) as usize
}

/// The same place, so that two things go wrong on one line, or another.
fn stay_or_go(urn: &mut Urn, at: usize, count: usize) -> usize {
    if urn.percent(50) {
        at
    } else {
        place(urn, count)
    }
}

/// About as many data records as an S5 can count, and one with the low 16 bits of their number.
fn draw_many(urn: &mut Urn) -> Vec<u8> {
    let count = 0xFFFF + urn.below(3);
    let [data, counted, end] = [(1, 0), (5, count & 0xFFFF), (9, 0)]
        .map(|(kind, address)| [Record { kind, address, data: vec![] }.text(), b"\n".to_vec()].concat());
    [data.repeat(count as usize), counted, end].concat()
}

fn draw_bytes(urn: &mut Urn) -> Vec<u8> {
    let mut bytes = vec![0; place(urn, 40)];
    urn.fill(&mut bytes);
    if urn.percent(70) {
        bytes.iter_mut().for_each(|byte| *byte = urn.pick(LIKELY));
    }
    bytes
}

fn draw_records(urn: &mut Urn, length: usize) -> Vec<Record> {
    let kind = 1 + urn.below(3) as u8;
    let mut records = if urn.percent(8) { vec![] } else { draw_data(urn, kind, length) };
    let end = if records.is_empty() { 7 + urn.below(3) as u8 } else { 10 - kind };
    for _ in 0..urn.pick(&[0, 0, 1, 1, 2]) {
        let at = if urn.percent(50) { 0 } else { place(urn, records.len() + 1) };
        let data = draw_header(urn);
        records.insert(at, Record { kind: 0, address: draw_address(urn, 0), data });
    }
    for _ in 0..urn.pick(&[0, 0, 1, 1, 2]) {
        let at = place(urn, records.len() + 1);
        records.insert(at, Record { kind: 5, address: data_before(&records, at), data: vec![] });
    }
    records.push(Record { kind: end, address: draw_address(urn, end), data: vec![] });
    records
}

/// Data records that name no byte twice, in any order.
fn draw_data(urn: &mut Urn, kind: u8, length: usize) -> Vec<Record> {
    let reach = length.min(top(kind) as usize + 1);
    let longest = urn.pick(&[1, 1, 2, 4, 16, 32, most_data(kind)]);
    let count = urn.pick(&[1, 2, 3, 4, 5, 10, 40]);
    let mut records = vec![];
    let mut at = draw_start(urn, reach);
    while at < reach && records.len() < count {
        let bytes = if urn.percent(8) { 0 } else { (1 + place(urn, longest)).min(length - at) };
        let mut data = vec![0; bytes];
        urn.fill(&mut data);
        // A record without data names no byte, wherever it stands.
        let address = if bytes == 0 { draw_address(urn, kind) } else { at as u32 };
        records.push(Record { kind, address, data });
        at += bytes + if urn.percent(70) { 0 } else { place(urn, 8) };
    }
    match urn.below(3) {
        0 => records.reverse(),
        1 => (1..records.len()).for_each(|last| records.swap(place(urn, last + 1), last)),
        _ => {}
    }
    records
}

/// Where data begin: at 0, anywhere, near the last address or there.
fn draw_start(urn: &mut Urn, reach: usize) -> usize {
    match urn.below(8) {
        0..=3 => 0,
        4..=5 => place(urn, reach),
        6 => reach.saturating_sub(1 + place(urn, 40)),
        _ => reach.saturating_sub(1),
    }
}

fn draw_address(urn: &mut Urn, kind: u8) -> u32 {
    urn.value() & top(kind)
}

fn draw_header(urn: &mut Urn) -> Vec<u8> {
    let most = urn.pick(&[1, 12, 12, 12, most_data(0) + 1]);
    let mut data = vec![0; place(urn, most)];
    urn.fill(&mut data);
    data
}

fn data_before(records: &[Record], at: usize) -> u32 {
    records[..at].iter().filter(|record| record.is_data()).count() as u32
}

/// The lines, with carriage returns and lower-case hex in none of them, in some or in all.
fn write(urn: &mut Urn, records: &[Record]) -> Vec<Line> {
    let (returns, lower) = (urn.pick(&[0, 0, 0, 50, 100]), urn.pick(&[0, 0, 0, 50, 100]));
    let write = |record: &Record| {
        let mut text = record.text();
        text[2..].iter_mut().filter(|_| urn.percent(lower)).for_each(|digit| digit.make_ascii_lowercase());
        Line { text, end: if urn.percent(returns) { b"\r\n" } else { b"\n" } }
    };
    records.iter().map(write).collect()
}

/// Makes something wrong about the record at the place, or about another where it must be, and gives the place of that.
fn misplace(urn: &mut Urn, records: &mut Vec<Record>, at: usize, length: usize) -> usize {
    match urn.below(24) {
        0..=3 => put_outside(urn, records, at, length),
        4..=8 => overlap(urn, records, at),
        9 => {
            let at = overlap(urn, records, at);
            stretch(records, at, length)
        }
        10..=12 => miscount(urn, records, at),
        13 => mix(urn, records, at),
        14 => {
            records.iter_mut().skip(at).take(1).for_each(|record| record.kind = urn.below(10) as u8);
            at
        }
        15..=16 => end_otherwise(urn, records),
        17..=18 => {
            records.pop();
            records.len().saturating_sub(1)
        }
        19..=20 => add_after_end(urn, records),
        21 => load(urn, records, at),
        _ => rearrange(urn, records, at),
    }
}

/// The place, where it holds a data record, or that of another one.
fn data_place(urn: &mut Urn, records: &[Record], at: usize) -> Option<usize> {
    let places: Vec<_> = (0..records.len()).filter(|place| records[*place].is_data()).collect();
    match places.contains(&at) {
        true => Some(at),
        false => (!places.is_empty()).then(|| urn.pick(&places)),
    }
}

/// A data byte behind the end of memory, the first there or another, or about where addresses end.
fn put_outside(urn: &mut Urn, records: &mut [Record], at: usize, length: usize) -> usize {
    let Some(at) = data_place(urn, records, at) else {
        return at;
    };
    let record = &mut records[at];
    let bytes = record.data.len().max(1 + place(urn, 3));
    record.data.resize(bytes, 0xA5);
    let address = match urn.below(6) {
        0..=1 => (length + 1).saturating_sub(bytes) as u32,
        2 => length.saturating_sub(place(urn, bytes)) as u32,
        3 => length as u32 + urn.below(64),
        4 => top(record.kind) - urn.below(3),
        _ => urn.pick(&[0xFFFF, 0x1_0000, 0xFF_FFFF, 0x100_0000, 0x8000_0000, 0xFFFF_FFFF]),
    };
    record.address = address & top(record.kind);
    at
}

/// Two data records that share a byte at least: the first of one is the last of the other, or any of it.
fn overlap(urn: &mut Urn, records: &mut [Record], at: usize) -> usize {
    let Some(at) = data_place(urn, records, at) else {
        return at;
    };
    let names_bytes = |record: &Record| record.is_data() && !record.data.is_empty();
    let others: Vec<_> = (0..records.len()).filter(|other| *other != at && names_bytes(&records[*other])).collect();
    if others.is_empty() {
        return at;
    }
    let other = urn.pick(&others);
    let (first, bytes) = (records[other].address, records[other].data.len() as u32);
    let record = &mut records[at];
    if record.data.is_empty() {
        record.data.push(0x5A);
    }
    record.address = match urn.below(4) {
        0..=1 => first.wrapping_add(bytes - 1),
        2 => {
            record.data.truncate(first as usize + 1);
            first.wrapping_sub(record.data.len() as u32 - 1)
        }
        _ => first.wrapping_add(urn.below(bytes)),
    };
    at.max(other)
}

/// Lengthens a data record until it goes over the end of memory, as far as a record may be.
fn stretch(records: &mut [Record], at: usize, length: usize) -> usize {
    if let Some(record) = records.get_mut(at).filter(|record| record.is_data()) {
        let bytes = (length + 1).saturating_sub(record.address as usize).min(most_data(record.kind));
        record.data.resize(bytes.max(record.data.len()), 0x3C);
    }
    at
}

/// An S5 that counts one too many or too few, the lines, what comes after it as well, or anything.
fn miscount(urn: &mut Urn, records: &mut Vec<Record>, at: usize) -> usize {
    let at = at.min(records.len());
    let right = data_before(records, at);
    let count = match urn.below(6) {
        0..=1 => right + 1,
        2 => right.wrapping_sub(1),
        3 => at as u32,
        4 => data_before(records, records.len()),
        _ => urn.value(),
    };
    records.insert(at, Record { kind: 5, address: count & 0xFFFF, data: vec![] });
    at
}

/// A data record of another type than the others.
fn mix(urn: &mut Urn, records: &mut [Record], at: usize) -> usize {
    let Some(at) = data_place(urn, records, at) else {
        return at;
    };
    records[at].kind = 1 + (records[at].kind + urn.below(2) as u8) % 3;
    at
}

fn end_otherwise(urn: &mut Urn, records: &mut [Record]) -> usize {
    let at = records.len().saturating_sub(1);
    records.iter_mut().skip(at).for_each(|end| end.kind = 7 + urn.below(3) as u8);
    at
}

/// A copy of some record behind the end record, or another end record.
fn add_after_end(urn: &mut Urn, records: &mut Vec<Record>) -> usize {
    let from = place(urn, records.len());
    records.extend(records.get(from).cloned());
    if urn.percent(30) {
        end_otherwise(urn, records);
    }
    records.len().saturating_sub(1)
}

/// Data bytes in an S5 or an end record.
fn load(urn: &mut Urn, records: &mut [Record], at: usize) -> usize {
    let places: Vec<_> = (0..records.len()).filter(|place| records[*place].kind > 3).collect();
    if places.is_empty() {
        return at;
    }
    let at = if places.contains(&at) { at } else { urn.pick(&places) };
    records[at].data.resize(1 + place(urn, 4), 0);
    at
}

/// A record left out, written twice, or in the place of another.
fn rearrange(urn: &mut Urn, records: &mut Vec<Record>, at: usize) -> usize {
    let other = place(urn, records.len());
    if at.max(other) >= records.len() {
        return at;
    }
    match urn.below(3) {
        0 => drop(records.remove(at)),
        1 => records.insert(other, records[at].clone()),
        _ => records.swap(at, other),
    }
    other
}

fn spoil(urn: &mut Urn, line: &mut Line) {
    match urn.below(10) {
        0..=1 => change_bytes(&mut line.text, |bytes| flip_check(urn, bytes)),
        2..=4 => change_bytes(&mut line.text, |bytes| spoil_bytes(urn, bytes)),
        5..=7 => spoil_text(urn, &mut line.text),
        _ => line.end = urn.pick(&BAD_ENDS),
    }
}

/// Changes the bytes that a line names, where it still names bytes.
fn change_bytes(text: &mut Vec<u8>, change: impl FnOnce(&mut Vec<u8>)) {
    if let Some(mut bytes) = text.get(2..).and_then(unhex).filter(|bytes| !bytes.is_empty()) {
        change(&mut bytes);
        text.truncate(2);
        text.extend(hex(&bytes));
    }
}

fn flip_check(urn: &mut Urn, bytes: &mut [u8]) {
    bytes.iter_mut().rev().take(1).for_each(|check| *check ^= 1 << urn.below(8));
}

/// Another byte, or more or fewer of them; the count and the check byte are put right or not.
fn spoil_bytes(urn: &mut Urn, bytes: &mut Vec<u8>) {
    let at = place(urn, bytes.len());
    match urn.below(8) {
        0..=1 => bytes[at] ^= 1 << urn.below(8),
        2 => bytes[at] = urn.word() as u8,
        3 => bytes[0] = bytes[0].wrapping_add(urn.pick(&[1, 2, 254, 255])),
        4 => bytes[0] = urn.word() as u8,
        5 => drop(bytes.remove(at)),
        6 => bytes.insert(at, urn.word() as u8),
        // So many zeros leave the low bytes of count and sum as they were.
        _ => drop(bytes.splice(at..at, [0; 256])),
    }
    if urn.percent(40) {
        recount(bytes);
    }
    if urn.percent(60) {
        recheck(bytes);
    }
}

/// Another type or first letter, or other bytes, more or fewer of them.
fn spoil_text(urn: &mut Urn, text: &mut Vec<u8>) {
    let at = place(urn, text.len() + 1);
    let byte = if urn.percent(80) { urn.pick(LIKELY) } else { urn.word() as u8 };
    match urn.below(14) {
        0..=2 => text.iter_mut().skip(1).take(1).for_each(|digit| *digit = urn.pick(b"0123456789A/:")),
        3..=4 => text.iter_mut().take(1).for_each(|letter| *letter = urn.pick(b"sssTR3 ")),
        5..=6 => text.iter_mut().skip(at).take(1).for_each(|changed| *changed = byte),
        7..=9 => text.insert(at, byte),
        10 => drop(text.splice(at..text.len().min(at + 1), [])),
        11 => text.truncate(at),
        12 => text.iter_mut().skip(at).take(4).for_each(|changed| *changed = urn.word() as u8),
        _ => text.push(byte),
    }
}
