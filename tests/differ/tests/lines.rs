//! That the comparison of lines can fail: each library below has one flaw, and each is caught.

use differ::lines::{compare, Tally};
use differ::Subject;
use draw::Urn;
use linked::{Library, LINKED, LINKED_42X};
use second::Profile::{self, Ppe42, Ppe42x};
use second::{Kind, Word, LINE};

const LINES: u64 = 50_000;

fn caught(library: &Library) -> bool {
    caught_as(Ppe42, library)
}

fn caught_as(profile: Profile, library: &Library) -> bool {
    let subject = Subject { profile, library: *library };
    (0..LINES).any(|line| compare(&subject, &mut Urn::of_case(7, line), &mut Tally::default()).is_err())
}

fn assemble(line: &[u8]) -> u64 {
    second::assemble(Ppe42, line)
}

fn disassemble(word: u32, out: &mut [u8]) -> u64 {
    second::disassemble(Ppe42, word, out)
}

const fn refusal(number: u64, column: usize) -> u64 {
    number << 48 | (column as u64) << 32
}

/// The line with the first such part written otherwise.
fn replaced(line: &[u8], part: &[u8], by: &[u8]) -> Vec<u8> {
    match line.windows(part.len()).position(|window| window == part) {
        Some(at) => [&line[..at], by, &line[at + part.len()..]].concat(),
        None => line.to_vec(),
    }
}

/// Whether an operand is a register that is none of the sixteen.
fn names_another_register(line: &[u8]) -> bool {
    let operands = line.split(|byte| b" ,()".contains(byte)).filter_map(|operand| operand.strip_prefix(b"r"));
    let mut numbers = operands.filter_map(|digits| std::str::from_utf8(digits).ok()?.parse().ok());
    numbers.any(|number| !draw::REGISTERS.contains(&number))
}

/// What a line comes to.
type Assemble = fn(&[u8]) -> u64;

const FLAWS: [(&str, Assemble); 21] = [
    ("capitals are taken", |line| assemble(&line.to_ascii_lowercase())),
    ("a line may end with a space", |line| assemble(line.strip_suffix(b" ").unwrap_or(line))),
    ("a line may end with a line feed", |line| assemble(line.strip_suffix(b"\n").unwrap_or(line))),
    ("a space may follow a comma", |line| assemble(&replaced(line, b", ", b","))),
    ("00 is a base", |line| assemble(&replaced(line, b"(00)", b"(0)"))),
    ("0 is any register", |line| match assemble(&replaced(line, b",0,", b",r0,")) {
        right if right >> 48 == 0 => right,
        _ => assemble(line),
    }),
    ("a base of 0 is written r0", |line| assemble(&replaced(line, b"(0)", b"(?)"))),
    ("two minuses are none", |line| assemble(&replaced(line, b"--", b""))),
    ("a plus may come first", |line| assemble(&replaced(line, b"(+", b"("))),
    ("0X is hex", |line| assemble(&replaced(line, b"0X", b"0x"))),
    ("a line may have 257 bytes", |line| match line {
        [start @ .., b')' | b'0'..=b'9'] if line.len() == 257 => assemble(start),
        _ => assemble(line),
    }),
    ("a line has 255 bytes", |line| if line.len() == 256 { refusal(11, 255) } else { assemble(line) }),
    ("a long line is refused at its end", |line| match assemble(line) {
        answer if answer == refusal(11, 256) => refusal(11, line.len()),
        answer => answer,
    }),
    ("a number of many digits comes round", |line| match assemble(line) {
        answer if answer >> 48 == 12 => assemble(&replaced(line, b"0x100000001", b"0x00000001")),
        answer => answer,
    }),
    ("a value too large is that of its bracket", |line| match assemble(line) {
        answer if answer >> 48 == 12 && line[(answer >> 32) as u16 as usize - 1] == b'(' => answer - refusal(0, 1),
        answer => answer,
    }),
    ("a join starts inside the bracket of its left part", |line| match assemble(line) {
        answer if answer >> 48 == 12 && line[(answer >> 32) as u16 as usize] == b'(' => answer + refusal(0, 1),
        answer => answer,
    }),
    ("-2147483648 is taken", |line| assemble(&replaced(line, b"-2147483648", b"-2147483647-1"))),
    ("operands are looked at before values", |line| match assemble(line) {
        answer if answer >> 48 == 12 && names_another_register(line) => refusal(6, 0),
        answer => answer,
    }),
    ("a target is rounded", |line| match assemble(line) {
        answer if answer == refusal(6, 0) && line.starts_with(b"b") => assemble(&[line, b"-1"].concat()),
        answer => answer,
    }),
    ("a refusal 6 has the column of its end", |line| match assemble(line) {
        answer if answer == refusal(6, 0) => refusal(6, line.len()),
        answer => answer,
    }),
    ("SPRG0 is written by a second number", |line| assemble(&replaced(line, b"mtspr 286,", b"mtspr 272,"))),
];

#[test]
fn flaws_of_assembling() {
    for (name, flawed) in FLAWS {
        assert!(caught(&Library { assemble: flawed, ..LINKED }), "{name}");
    }
}

/// Writes a word's line otherwise, given its bytes and the word.
fn rewritten(word: u32, out: &mut [u8], change: fn(String, Kind) -> String) -> u64 {
    let mut right = [0; LINE];
    let answer = disassemble(word, &mut right);
    let Some(kind) = Word(word).kind(Ppe42).filter(|_| out.len() >= LINE) else {
        return disassemble(word, out);
    };
    let length = answer as u32 as usize;
    let line = change(String::from_utf8_lossy(&right[..length]).into(), kind);
    out[..line.len()].copy_from_slice(line.as_bytes());
    answer - length as u64 + line.len() as u64
}

/// What a word comes to, and what is written of it.
type Disassemble = fn(u32, &mut [u8]) -> u64;

const TOLD_WRONGLY: [(&str, Disassemble); 12] = [
    ("63 bytes are enough", |word, out| {
        let mut whole = [0; LINE];
        let answer = disassemble(word, &mut whole);
        match out.len() {
            63 => out.copy_from_slice(&whole[..63]),
            _ => return disassemble(word, out),
        }
        answer
    }),
    ("a short buffer is written", |word, out| {
        if out.len() < LINE {
            out.fill(0);
        }
        disassemble(word, out)
    }),
    ("a short buffer is refused for legal words alone", |word, out| {
        if second::legal(Ppe42, word) {
            disassemble(word, out)
        } else {
            0
        }
    }),
    ("a line ends with a zero", |word, out| {
        let answer = disassemble(word, out);
        if answer >> 48 == 0 && answer != 0 {
            out[answer as u32 as usize] = 0;
        }
        answer
    }),
    ("a buffer is cleared for an illegal word", |word, out| {
        if out.len() >= LINE && !second::legal(Ppe42, word) {
            out.fill(0);
        }
        disassemble(word, out)
    }),
    ("a set field is not told", |word, out| disassemble(word, out) & !(1 << 33)),
    ("a branch hint is not told", |word, out| match Word(word).kind(Ppe42) {
        Some(Kind::Bclr | Kind::Bcctr) => disassemble(word & !(0b11 << 11), out),
        _ => disassemble(word, out),
    }),
    ("a base of 0 is r0", |word, out| rewritten(word, out, |line, _| line.replace("(0)", "(r0)"))),
    ("an index on 0 is r0", |word, out| rewritten(word, out, |line, _| line.replace(",0,", ",r0,"))),
    ("trap has its own mnemonic", |word, out| rewritten(word, out, |line, _| line.replace("tw 31,r0,r0", "trap"))),
    ("TO is in hex", |word, out| {
        rewritten(word, out, |line, kind| if kind == Kind::Tw { line.replace("31,", "0x1f,") } else { line })
    }),
    ("compares name CR0", |word, out| {
        rewritten(word, out, |line, kind| if kind == Kind::Cmpwi { line.replacen("r", "0,r", 1) } else { line })
    }),
];

#[test]
fn flaws_of_disassembling() {
    for (name, flawed) in TOLD_WRONGLY {
        assert!(caught(&Library { disassemble: flawed, ..LINKED }), "{name}");
    }
}

/// The offset of a line that is a frame's, if it is a plain number.
fn plain_offset(line: &[u8]) -> Option<i64> {
    let line = std::str::from_utf8(line).ok().filter(|line| line.contains("sku "))?;
    line.split(',').nth(1)?.split('(').next()?.parse().ok()
}

const FLAWS_42X: [(&str, Assemble); 5] = [
    ("an offset is a multiple of eight", |line| match plain_offset(line) {
        Some(offset) if offset % 8 != 0 && second::assemble(Ppe42x, line) >> 48 == 0 => refusal(6, 0),
        _ => second::assemble(Ppe42x, line),
    }),
    ("an offset is taken towards 0", |line| match plain_offset(line) {
        Some(offset) if offset < 0 => {
            let towards = (offset / 8 * 8).to_string();
            second::assemble(Ppe42x, &replaced(line, offset.to_string().as_bytes(), towards.as_bytes()))
        }
        _ => second::assemble(Ppe42x, line),
    }),
    ("a frame that is none is no line", |line| match second::assemble(Ppe42x, line) {
        answer if answer >> 48 == 6 && plain_offset(line).is_some() => refusal(11, line.len()),
        answer => answer,
    }),
    ("SH of a doubleword has five bits", |line| match second::assemble(Ppe42x, line) {
        word if word >> 26 == 30 && word & 2 != 0 => refusal(6, 0),
        answer => answer,
    }),
    ("the parts of a mask are in order", |line| match second::assemble(Ppe42x, line) {
        word if word >> 26 == 30 => word & !(63 << 5) | (word >> 6 & 31 | (word & 32)) << 5,
        answer => answer,
    }),
];

/// What is told of a word of the 42X.
const TOLD_WRONGLY_42X: [(&str, Disassemble); 3] = [
    ("a tw with TG is a line of its own", |word, out| {
        if Word(word).kind(Ppe42x) == Some(Kind::Tw) && word & 1 == 1 {
            return 0;
        }
        second::disassemble(Ppe42x, word, out)
    }),
    ("TG is not told", |word, out| match Word(word).kind(Ppe42x) {
        Some(Kind::Tw) => second::disassemble(Ppe42x, word, out) & !(1 << 33),
        _ => second::disassemble(Ppe42x, word, out),
    }),
    ("a tw that is none without TG is illegal", |word, out| {
        if out.len() >= LINE && Word(word).kind(Ppe42x) == Some(Kind::Tw) && !second::legal(Ppe42x, word & !1) {
            return 0;
        }
        second::disassemble(Ppe42x, word, out)
    }),
];

#[test]
fn flaws_of_lines_of_the_42x() {
    for (name, flawed) in FLAWS_42X {
        assert!(caught_as(Ppe42x, &Library { assemble: flawed, ..LINKED_42X }), "{name}");
    }
    for (name, flawed) in TOLD_WRONGLY_42X {
        assert!(caught_as(Ppe42x, &Library { disassemble: flawed, ..LINKED_42X }), "{name}");
    }
    for (profile, right, wrong) in [(Ppe42, LINKED, LINKED_42X), (Ppe42x, LINKED_42X, LINKED)] {
        assert!(!caught_as(profile, &right));
        assert!(caught_as(profile, &Library { assemble: wrong.assemble, ..right }));
        assert!(caught_as(profile, &Library { disassemble: wrong.disassemble, ..right }));
    }
}

#[test]
fn the_second_implementation_agrees_with_itself() {
    assert!(!caught(&Library { assemble, disassemble, ..LINKED }));
}
