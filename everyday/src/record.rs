//! One S-record: what a line of a file is by itself, or what is wrong with it.

use crate::excerpt::readable;

/// The digits that may follow the S.
const TYPES: &[u8] = b"01235789";

/// Columns of a line: its type, its count, and what that counts, the address first.
pub const TYPE: usize = 1;
pub const COUNT: usize = 2;
pub const ADDRESS: usize = 4;

pub struct Record {
    /// The digit of its type.
    pub kind: u8,
    pub address: u64,
    /// How many bytes of data it has.
    pub bytes: u64,
}

/// What is wrong with a line, and the column of it, from 0, that is meant.
pub struct Wrong {
    pub sentence: String,
    pub column: Option<usize>,
}

impl Wrong {
    pub fn at(column: usize, sentence: impl Into<String>) -> Wrong {
        Wrong { sentence: sentence.into(), column: Some(column) }
    }

    /// With the line as a whole.
    pub fn whole(sentence: impl Into<String>) -> Wrong {
        Wrong { sentence: sentence.into(), column: None }
    }
}

impl Record {
    /// The record that a line without its end is.
    pub fn of(line: &[u8]) -> Result<Record, Wrong> {
        let kind = kind(line)?;
        digits(line)?;
        let count = usize::from(byte(&line[COUNT..ADDRESS]));
        let width = address_bytes(kind);
        lengths(line, kind, count, width + 1)?;
        let bytes: Vec<u8> = line[COUNT..].chunks(2).map(byte).collect();
        let (counted, check) = (&bytes[..count], bytes[count]);
        let wanted = !counted.iter().fold(0u8, |sum, &byte| sum.wrapping_add(byte));
        if check != wanted {
            let sentence = format!("the check byte is {check:02X}, and the line's bytes want {wanted:02X}");
            return Err(Wrong::at(line.len() - 2, sentence));
        }
        let address = counted[1..=width].iter().fold(0, |address, &byte| address << 8 | u64::from(byte));
        Ok(Record { kind, address, bytes: (count - 1 - width) as u64 })
    }

    pub fn is_data(&self) -> bool {
        matches!(self.kind, b'1'..=b'3')
    }

    pub fn is_end(&self) -> bool {
        matches!(self.kind, b'7'..=b'9')
    }

    pub fn name(&self) -> String {
        format!("S{}", char::from(self.kind))
    }

    /// The name of the end that data of this type have: S9 for S1, S8 for S2, S7 for S3.
    pub fn wanted_end(&self) -> String {
        format!("S{}", char::from(b'1' + b'9' - self.kind))
    }

    /// The address behind its last byte.
    pub fn end(&self) -> u64 {
        self.address + self.bytes
    }
}

/// How many bytes the address of a type has.
pub fn address_bytes(kind: u8) -> usize {
    match kind {
        b'2' | b'8' => 3,
        b'3' | b'7' => 4,
        _ => 2,
    }
}

/// The byte that hex digits are.
fn byte(digits: &[u8]) -> u8 {
    let value = |&digit: &u8| char::from(digit).to_digit(16).unwrap_or(0) as u8;
    digits.iter().fold(0, |byte, digit| byte << 4 | value(digit))
}

fn kind(line: &[u8]) -> Result<u8, Wrong> {
    match *line {
        [b'S', kind, ..] if TYPES.contains(&kind) => Ok(kind),
        [b'S', other, ..] => {
            let other = readable(&[other]);
            Err(Wrong::at(TYPE, format!("there is no type S{other}; a record is S0, S1, S2, S3, S5, S7, S8 or S9")))
        }
        [b'S'] => Err(Wrong::at(TYPE, "the line ends before its type, a digit after S")),
        [b's', ..] => Err(Wrong::at(0, "the S must be upper-case")),
        [b':', ..] => Err(Wrong::at(0, "this is Intel HEX; make S-records of it, with objcopy -I ihex -O srec")),
        _ => Err(Wrong::at(0, "the line does not begin with S; text is taken for S-records, whose lines all do")),
    }
}

/// After the type stand hex digits, two at least.
fn digits(line: &[u8]) -> Result<(), Wrong> {
    if let Some(column) = (COUNT..line.len()).find(|&column| !line[column].is_ascii_hexdigit()) {
        let part = if column < ADDRESS { ", and the count wants two" } else { "" };
        let hint = match line[column] {
            b' ' | b'\t' => "; a record has no blanks",
            b'\r' => "; a carriage return stands only before the line feed",
            _ => "",
        };
        let found = readable(&line[column..=column]);
        return Err(Wrong::at(column, format!("'{found}' in column {column} is no hex digit{part}{hint}")));
    }
    if line.len() < ADDRESS {
        return Err(Wrong::at(line.len(), "the line ends before its count, two hex digits after the type"));
    }
    Ok(())
}

/// The count against the type, whose address and check byte are the least that it counts, and against the line's length.
fn lengths(line: &[u8], kind: u8, count: usize, least: usize) -> Result<(), Wrong> {
    let name = char::from(kind);
    let has_data = matches!(kind, b'0'..=b'3');
    let (wanted, found) = (2 * count, line.len() - ADDRESS);
    if count < least {
        let more = if has_data { " at least" } else { "" };
        return Err(Wrong::at(COUNT, format!("the count is {count:02X}, and that of an S{name} is {least:02X}{more}")));
    }
    if found != wanted {
        let sentence = format!("the count {count:02X} wants {wanted} digits after it, and has {found}");
        return Err(Wrong::at(line.len().min(ADDRESS + wanted), sentence));
    }
    if count > least && !has_data {
        return Err(Wrong::at(
            COUNT,
            format!("an S{name} has no data, and its count is {least:02X}; here it is {count:02X}"),
        ));
    }
    Ok(())
}
