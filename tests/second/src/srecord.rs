//! Lent memory as Motorola S-records (request C-15).

use crate::refusals::{check_memory, BLOCK, SHORT_OUTPUT};

/// A malformed line, a wrong check byte, a data record of another type, or a line after the end record.
const MALFORMED: u32 = 13;
/// A data byte is outside memory.
const OUTSIDE: u32 = 14;
/// A byte is named by two data records.
const NAMED_TWICE: u32 = 15;
/// The end record is missing or is not that of the data records.
const WRONG_END: u32 = 16;
/// An S5 does not count the data records before it.
const WRONG_COUNT: u32 = 17;

/// Bytes of the lines that are written; an S3 has a block of data.
const S3_LINE: usize = 79;
const S7_LINE: usize = 15;

const DIGITS: &[u8; 16] = b"0123456789ABCDEF";

/// The refusal and its line, counted from 1; a refusal of memory has line 0.
pub fn read(memory: &mut [u8], file: &[u8]) -> Result<(), (u32, u64)> {
    check_memory(memory.len()).map_err(|refusal| (refusal, 0))?;
    let mut reader = Reader { named: vec![None; memory.len()], address_bytes: None, data_records: 0, ended: false };
    let mut number = 0;
    for line in file.split_inclusive(|byte| *byte == b'\n') {
        number += 1;
        reader.line(line).map_err(|refusal| (refusal, number))?;
    }
    if !reader.ended {
        return Err((WRONG_END, number + 1));
    }
    for (byte, named) in memory.iter_mut().zip(reader.named) {
        *byte = named.unwrap_or(*byte);
    }
    Ok(())
}

/// Bytes written.
pub fn write(memory: &[u8], out: &mut [u8]) -> Result<u32, u32> {
    check_memory(memory.len())?;
    let length = S3_LINE * (memory.len() / BLOCK) + S7_LINE;
    if out.len() < length {
        return Err(SHORT_OUTPUT);
    }
    let mut lines = vec![];
    for (address, data) in (0..).step_by(BLOCK).zip(memory.chunks(BLOCK)) {
        lines.extend(line_of(b"S3", address, data));
    }
    lines.extend(line_of(b"S7", 0, &[]));
    out[..length].copy_from_slice(&lines);
    Ok(length as u32)
}

/// What the lines so far have said.
struct Reader {
    /// For each byte of lent memory, what a data record has for it.
    named: Vec<Option<u8>>,
    /// The type of the data records, which the first of them fixes.
    address_bytes: Option<usize>,
    data_records: u64,
    ended: bool,
}

impl Reader {
    fn line(&mut self, line: &[u8]) -> Result<(), u32> {
        if self.ended {
            return Err(MALFORMED);
        }
        let record = record(line).ok_or(MALFORMED)?;
        match record.kind {
            Kind::Header => Ok(()),
            Kind::Data(address_bytes) => self.data(address_bytes, record.address, &record.data),
            Kind::Count => self.count(record.address),
            Kind::End(address_bytes) => self.end(address_bytes),
        }
    }

    /// A record without data names no byte, but it counts and has its type.
    fn data(&mut self, address_bytes: usize, address: u64, data: &[u8]) -> Result<(), u32> {
        if *self.address_bytes.get_or_insert(address_bytes) != address_bytes {
            return Err(MALFORMED);
        }
        self.data_records += 1;
        // Addresses do not wrap: after FFFF of an S1 comes 10000.
        let addresses = address..address + data.len() as u64;
        if addresses.clone().any(|address| address >= self.named.len() as u64) {
            return Err(OUTSIDE);
        }
        for (address, byte) in addresses.zip(data) {
            if self.named[address as usize].replace(*byte).is_some() {
                return Err(NAMED_TWICE);
            }
        }
        Ok(())
    }

    fn count(&self, count: u64) -> Result<(), u32> {
        if count == self.data_records {
            Ok(())
        } else {
            Err(WRONG_COUNT)
        }
    }

    /// With no data records any end record fits.
    fn end(&mut self, address_bytes: usize) -> Result<(), u32> {
        if self.address_bytes.is_some_and(|of_data| of_data != address_bytes) {
            return Err(WRONG_END);
        }
        self.ended = true;
        Ok(())
    }
}

/// Data records and the end records that match them have as many address bytes.
#[derive(Clone, Copy)]
enum Kind {
    Header,
    Data(usize),
    Count,
    End(usize),
}

impl Kind {
    fn of(start: &[u8]) -> Option<Kind> {
        match start {
            b"S0" => Some(Kind::Header),
            b"S1" => Some(Kind::Data(2)),
            b"S2" => Some(Kind::Data(3)),
            b"S3" => Some(Kind::Data(4)),
            b"S5" => Some(Kind::Count),
            b"S7" => Some(Kind::End(4)),
            b"S8" => Some(Kind::End(3)),
            b"S9" => Some(Kind::End(2)),
            _ => None,
        }
    }

    fn address_bytes(self) -> usize {
        match self {
            Kind::Header | Kind::Count => 2,
            Kind::Data(address_bytes) | Kind::End(address_bytes) => address_bytes,
        }
    }

    fn may_have_data(self) -> bool {
        matches!(self, Kind::Header | Kind::Data(_))
    }
}

struct Record {
    kind: Kind,
    /// Of an S5 the count.
    address: u64,
    data: Vec<u8>,
}

/// The record of a line that is given with its line feed; nothing where the line is malformed or its check byte wrong.
fn record(line: &[u8]) -> Option<Record> {
    let line = line.strip_suffix(b"\n")?;
    let line = line.strip_suffix(b"\r").unwrap_or(line);
    let (start, hex) = line.split_at_checked(2)?;
    let kind = Kind::of(start)?;
    let bytes = bytes_of(hex)?;
    let (check, summed) = bytes.split_last()?;
    let (count, rest) = summed.split_first()?;
    let (address, data) = rest.split_at_checked(kind.address_bytes())?;
    // The count has the check byte in it.
    let whole = *count as usize == rest.len() + 1;
    let allowed = data.is_empty() || kind.may_have_data();
    if !whole || !allowed || *check != check_byte(summed) {
        return None;
    }
    let address = address.iter().fold(0, |address, byte| address << 8 | *byte as u64);
    Some(Record { kind, address, data: data.to_vec() })
}

fn bytes_of(hex: &[u8]) -> Option<Vec<u8>> {
    hex.chunks(2).map(byte_of).collect()
}

/// A digit left alone is no byte.
fn byte_of(digits: &[u8]) -> Option<u8> {
    match digits {
        [high, low] => Some(digit(*high)? << 4 | digit(*low)?),
        _ => None,
    }
}

fn digit(byte: u8) -> Option<u8> {
    (byte as char).to_digit(16).map(|digit| digit as u8)
}

/// The ones' complement of the low byte of the sum of count, address and data.
fn check_byte(summed: &[u8]) -> u8 {
    !summed.iter().fold(0, |sum: u8, byte| sum.wrapping_add(*byte))
}

/// An S3 or S7, which have four address bytes.
fn line_of(start: &[u8], address: u32, data: &[u8]) -> Vec<u8> {
    let count = (4 + data.len() + 1) as u8;
    let mut bytes = [&[count], &address.to_be_bytes()[..], data].concat();
    bytes.push(check_byte(&bytes));
    let digits = bytes.iter().flat_map(|byte| [byte >> 4, byte & 15]);
    let hex: Vec<u8> = digits.map(|digit| DIGITS[digit as usize]).collect();
    [start, &hex, b"\n"].concat()
}
