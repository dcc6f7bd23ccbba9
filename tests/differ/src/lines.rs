//! Lines and their words: what a line comes to, and the line of its word and of another.

use crate::case::draw_word;
use crate::report::{buffers, words, Difference};
use crate::Subject;
use draw::{draw_line, Spelling, Urn, SPELLINGS, SPELLINGS_42X};
use second::{Kind, Profile, Word, LINE};
use std::collections::BTreeMap;
use std::fmt;

/// What the lines came to, so that a reader can see it.
#[derive(Default)]
pub struct Tally {
    refusals: BTreeMap<u64, u64>,
    pub words: u64,
    legal: u64,
    unwritten: u64,
}

impl fmt::Display for Tally {
    fn fmt(&self, f: &mut fmt::Formatter) -> fmt::Result {
        let refusals: Vec<_> = self.refusals.iter().map(|(number, count)| format!("{number}: {count}")).collect();
        writeln!(f, "{} lines", self.refusals.values().sum::<u64>())?;
        writeln!(f, "lines by refusal, 0 for none: {}", refusals.join(", "))?;
        writeln!(f, "{} words disassembled, {} of them legal", self.words, self.legal)?;
        write!(f, "{} words with a field set that their line leaves out", self.unwritten)
    }
}

/// One line; where it has a word, the line of that word and of a random one.
pub fn compare(subject: &Subject, urn: &mut Urn, tally: &mut Tally) -> Result<(), Difference> {
    let Subject { profile, library } = *subject;
    let line = draw_line(urn, spellings(profile));
    let (expected, given) = (second::assemble(profile, &line), (library.assemble)(&line));
    *tally.refusals.entry(expected >> 48).or_default() += 1;
    if expected != given {
        return Err(Difference::told(&format!("line \"{}\"", line.escape_ascii()), vec![comes_to(expected, given)]));
    }
    if expected >> 48 == 0 {
        compare_word(subject, expected as u32, urn, tally)?;
        compare_word(subject, draw_word(profile, urn), urn, tally)?;
    }
    Ok(())
}

fn spellings(profile: Profile) -> &'static [Spelling] {
    match profile {
        Profile::Ppe42 => &SPELLINGS,
        Profile::Ppe42x => &SPELLINGS_42X,
    }
}

fn comes_to(expected: u64, given: u64) -> String {
    let tell =
        |answer: u64| format!("refusal {} column {} word {:08X}", answer >> 48, (answer >> 32) as u16, answer as u32);
    format!("expected {}, given {}", tell(expected), tell(given))
}

fn compare_word(subject: &Subject, word: u32, urn: &mut Urn, tally: &mut Tally) -> Result<(), Difference> {
    let Subject { profile, library } = *subject;
    compare_refused(subject, word, urn)?;
    let mut expected = vec![urn.word() as u8; LINE + urn.below(4) as usize * 9];
    let mut given = expected.clone();
    let answer = second::disassemble(profile, word, &mut expected);
    let theirs = (library.disassemble)(word, &mut given);
    tally.words += 1;
    tally.legal += answer >> 32 & 1;
    tally.unwritten += answer >> 33 & 1;
    if answer != theirs || expected != given {
        let lines = [
            words("answer", answer, theirs),
            buffers("byte", &expected, &given),
            vec![format!("line: expected {}, given {}", text(&expected, answer), text(&given, theirs))],
        ];
        return Err(Difference::told(&format!("word {word:08X} disassembled"), lines.concat()));
    }
    match Word(word).kind(profile) {
        Some(kind) => compare_again(subject, word & !unwritten(kind), &given[..answer as u32 as usize]),
        None => Ok(()),
    }
}

/// The bytes that the answer counts, as far as there are any.
fn text(buffer: &[u8], answer: u64) -> String {
    let length = buffer.len().min(answer as u32 as usize);
    format!("\"{}\"", buffer[..length].escape_ascii())
}

/// A buffer that is too short for lines is left as it is, whatever the word.
fn compare_refused(subject: &Subject, word: u32, urn: &mut Urn) -> Result<(), Difference> {
    let length = if urn.percent(50) { LINE - 1 } else { urn.below(LINE as u32) as usize };
    let expected = vec![urn.word() as u8; length];
    let mut given = expected.clone();
    let (answer, theirs) = (8 << 48, (subject.library.disassemble)(word, &mut given));
    if answer == theirs && expected == given {
        return Ok(());
    }
    let lines = [words("answer", answer, theirs), buffers("byte", &expected, &given)].concat();
    Err(Difference::told(&format!("word {word:08X} disassembled to {length} bytes"), lines))
}

/// The line of a word makes it again, but for the fields that are not written; without TG, a tw of the 42X may be
/// illegal.
fn compare_again(subject: &Subject, word: u32, line: &[u8]) -> Result<(), Difference> {
    let expected = if second::legal(subject.profile, word) { word as u64 } else { 6 << 48 };
    let given = (subject.library.assemble)(line);
    if given == expected {
        return Ok(());
    }
    let what = format!("line \"{}\" of a disassembled word", line.escape_ascii());
    Err(Difference::told(&what, vec![comes_to(expected, given)]))
}

/// The bits that 9.4's syntax lines do not write: TG, BH and the hints of cache instructions.
fn unwritten(kind: Kind) -> u32 {
    match kind {
        Kind::Tw => 1,
        Kind::Bclr | Kind::Bcctr => 0b11 << 11,
        Kind::Dcbf => 0b11 << 21,
        Kind::Dcbt => 0b1_1111 << 21,
        _ => 0,
    }
}
