//! A difference, told so that the documents can judge it.

use linked::REACHED;
use second::registers::{others, GPRS};
use second::{Core, Profile, Word};
use std::fmt;

/// How many differing bytes of a buffer are listed.
const LISTED: usize = 8;

pub struct Difference(pub String);

impl fmt::Display for Difference {
    fn fmt(&self, f: &mut fmt::Formatter) -> fmt::Result {
        f.write_str(&self.0)
    }
}

impl Difference {
    /// What differs, and the lines that tell how.
    pub fn told(what: &str, lines: Vec<String>) -> Difference {
        Difference(format!("{what}\n  {}", lines.join("\n  ")))
    }
}

/// Answers in hex that are no count of steps.
pub fn words(name: &str, expected: u64, given: u64) -> Vec<String> {
    if expected == given {
        return vec![];
    }
    vec![format!("{name}: expected {expected:016X}, given {given:016X}")]
}

pub fn answers(expected: u64, given: u64) -> Vec<String> {
    if expected == given {
        return vec![];
    }
    let tell = |answer: u64| {
        let reach = if answer & REACHED == 0 { "" } else { ", reached" };
        format!("refusal {} count {}{reach}", (answer & !REACHED) >> 32, answer as u32)
    };
    vec![format!("answer: expected {}, given {}", tell(expected), tell(given))]
}

/// What a word of a state record holds.
fn name(place: usize) -> String {
    match place {
        0..16 => format!("r{}", GPRS[place]),
        16..34 => others(Profile::Ppe42x)[place - 16].0.into(),
        34 => "IAR".into(),
        _ => "halt code".into(),
    }
}

/// The words of two state records that differ, by name.
pub fn states(expected: &[u8], given: &[u8]) -> Vec<String> {
    let words = |state: &[u8]| state.chunks(4).map(<[u8]>::to_vec).collect::<Vec<_>>();
    let pairs = words(expected).into_iter().zip(words(given)).enumerate();
    pairs
        .filter(|(_, (expected, given))| expected != given)
        .map(|(i, (expected, given))| format!("{}: expected {}, given {}", name(i), hex(&expected), hex(&given)))
        .collect()
}

pub fn buffers(name: &str, expected: &[u8], given: &[u8]) -> Vec<String> {
    if expected == given {
        return vec![];
    }
    let pairs = expected.iter().zip(given).enumerate();
    pairs
        .filter(|(_, (expected, given))| expected != given)
        .take(LISTED)
        .map(|(at, (expected, given))| format!("{name} {at:X}: expected {expected:02X}, given {given:02X}"))
        .collect()
}

/// All registers on a line, and the word that is next.
pub fn before(profile: Profile, core: &Core, memory: &[u8], event: u8) -> String {
    let words = core.to_words().into_iter().enumerate();
    let registers: Vec<_> = words.map(|(i, word)| format!("{} {word:08X}", name(i))).collect();
    let word = word_at(memory, core.iar);
    let next = match word.and_then(|word| word.kind(profile)) {
        Some(kind) => kind.mnemonic(),
        None => "no instruction",
    };
    let word = word.map_or("none".into(), |word| format!("{:08X}", word.0));
    format!("M {:X}, event {event}, word {word} ({next})\n  before: {}", memory.len(), registers.join(" "))
}

pub fn word_at(memory: &[u8], address: u32) -> Option<Word> {
    let bytes = memory.get(address as usize..)?.first_chunk()?;
    Some(Word(u32::from_be_bytes(*bytes)))
}

fn hex(bytes: &[u8]) -> String {
    bytes.iter().map(|byte| format!("{byte:02X}")).collect()
}
