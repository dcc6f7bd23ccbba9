//! `list`: memory as instructions.

use crate::args::List;
use crate::capture::Capture;
use crate::files::{self, MOST_FIRMWARE};
use crate::firmware;
use crate::library::{Line, MOST};
use crate::load;
use crate::numbers::grouped;
use crate::profile::Profile;
use crate::registers;
use crate::say;
use crate::symbols::Symbols;
use std::process::ExitCode;

/// Letters of an instruction, before what follows moves.
pub const WIDTH: usize = 20;

/// Zero words one after the other that become one line.
const FOLDED: usize = 4;

struct Listed {
    profile: Profile,
    memory: Vec<u8>,
    /// From where up to where there is something, in order.
    parts: Vec<(usize, usize)>,
    symbols: Symbols,
    /// What the last part is the end of.
    what: &'static str,
}

pub fn list(profile: Profile, args: &List) -> Result<ExitCode, String> {
    let listed = read(profile, args)?;
    let mut parts = listed.parts.clone();
    if let Some(text) = &args.range {
        parts = within(text, &listed).map_err(|wrong| format!("{text}: {wrong}"))?;
    }
    let mut end = parts[0].0;
    for (from, to) in parts {
        if from > end && !say!("{end:08X}  {:<8}  nothing loaded up to {from:08X}", "") {
            break;
        }
        if !part(&listed, from, to) {
            break;
        }
        end = to;
    }
    Ok(ExitCode::SUCCESS)
}

/// A capture, or an ELF as `make` reads it.
fn read(profile: Profile, args: &List) -> Result<Listed, String> {
    let file = files::read(&args.file, MOST_FIRMWARE, "a capture or an ELF")?;
    let wrong = |wrong: String| format!("{}: {wrong}", args.file.display());
    if firmware::is_elf(&file) && Capture::profile_of(&file).is_none() {
        if args.elf.is_some() {
            return Err(wrong("it is an ELF and has symbols of its own; leave out --elf".into()));
        }
        return read_elf(profile, &file).map_err(wrong);
    }
    let memory = Capture::of(profile, &file).map_err(wrong)?.memory;
    let (parts, symbols) = (vec![(0, memory.len())], load::symbols(&args.elf)?);
    Ok(Listed { profile, memory, parts, symbols, what: "the memory" })
}

fn read_elf(profile: Profile, file: &[u8]) -> Result<Listed, String> {
    let firmware = firmware::load_elf(file, MOST)?;
    let mut spans = firmware::parts(file)?;
    spans.sort_unstable();
    let mut parts: Vec<(usize, usize)> = Vec::new();
    for (from, to) in spans {
        let (from, to) = whole_words(from as usize, to as usize);
        match parts.last_mut() {
            Some(last) if from <= last.1 => last.1 = to,
            _ => parts.push((from, to)),
        }
    }
    Ok(Listed { profile, memory: firmware.memory, parts, symbols: firmware.symbols, what: "what is loaded" })
}

fn whole_words(from: usize, to: usize) -> (usize, usize) {
    (from / 4 * 4, to.next_multiple_of(4))
}

/// What of the parts lies in the range, which is rounded to whole words.
fn within(text: &str, listed: &Listed) -> Result<Vec<(usize, usize)>, String> {
    let end = listed.parts.last().map_or(0, |part| part.1);
    let range = load::range(text, end, listed.what)?;
    let (from, to) = whole_words(range.0, range.1);
    let cut = listed.parts.iter().map(|part| (part.0.max(from), part.1.min(to)));
    let parts: Vec<(usize, usize)> = cut.filter(|part| part.0 < part.1).collect();
    if parts.is_empty() {
        return Err("nothing is loaded there; name another range".into());
    }
    if (from, to) != range {
        say!("{text} rounded to whole words: {from:X}..{to:X}");
    }
    Ok(parts)
}

/// Whether somebody still reads.
fn part(listed: &Listed, from: usize, to: usize) -> bool {
    let mut at = from;
    while at < to {
        let labels: Vec<String> = labels(&listed.symbols, at).collect();
        let zeros = zeros(listed, at, to);
        let (line, words) = match zeros {
            FOLDED.. => (folded(at, zeros), zeros),
            _ => (line(listed, at as u32, word_at(&listed.memory, at)), 1),
        };
        if !labels.iter().chain([&line]).all(|line| say!("{line}")) {
            return false;
        }
        at += 4 * words;
    }
    true
}

fn word_at(memory: &[u8], at: usize) -> u32 {
    u32::from_be_bytes([memory[at], memory[at + 1], memory[at + 2], memory[at + 3]])
}

/// The symbols that begin in the word at an address.
fn labels(symbols: &Symbols, at: usize) -> impl Iterator<Item = String> + '_ {
    let starting = symbols.starting(at as u32, at as u32 + 4);
    starting.map(|symbol| format!("{:08X}  <{}>:", symbol.address, symbol.name))
}

/// How many words are zero from there on, up to an end or to the next symbol.
fn zeros(listed: &Listed, at: usize, to: usize) -> usize {
    let mut words = (at..to).step_by(4).enumerate();
    let named = |at: usize| labels(&listed.symbols, at).next().is_some();
    let end = words.find(|&(k, at)| word_at(&listed.memory, at) != 0 || k > 0 && named(at));
    end.map_or((to - at) / 4, |(k, _)| k)
}

fn folded(at: usize, zeros: usize) -> String {
    let last = at + 4 * zeros - 4;
    format!("{at:08X}  00000000  {} words of 0, the last at {last:08X}", grouped(zeros as u64))
}

/// Address, word, instruction, and what more there is to say.
fn line(listed: &Listed, at: u32, word: u32) -> String {
    let line = format!("{at:08X}  {word:08X}  {:<WIDTH$}", instruction(listed.profile, word));
    match remark(listed, at, word) {
        Some(remark) => format!("{line}  # {remark}"),
        None => line.trim_end().into(),
    }
}

/// The line of a word. What is written for an illegal word is a line of no assembly.
pub fn instruction(profile: Profile, word: u32) -> String {
    profile.disassemble(word).map_or(format!(".word 0x{word:08X}"), |line| line.text)
}

fn remark(Listed { profile, symbols, .. }: &Listed, at: u32, word: u32) -> Option<String> {
    let Some(Line { text, .. }) = profile.disassemble(word) else { return Some("illegal".into()) };
    let parts =
        [target(&text, at).map(|to| symbols.place(to)), spr(&text).map(String::from), unwritten(*profile, word)];
    let parts: Vec<String> = parts.into_iter().flatten().collect();
    (!parts.is_empty()).then(|| parts.join("; "))
}

/// That a word has more than its line, which alone is another word or, as of a 42X's tw with TG and any registers, none.
pub fn unwritten(profile: Profile, word: u32) -> Option<String> {
    let line = profile.disassemble(word).filter(|line| line.more)?;
    let alone = profile.assemble(line.text.as_bytes());
    let alone = alone.map_or("no instruction".into(), |word| format!("{word:08X}"));
    Some(format!("with a field that no line writes: the line alone is {alone}"))
}

/// Where a branch leads: from its own address on, or with an a in its name from 0 on.
fn target(line: &str, at: u32) -> Option<u32> {
    let (mnemonic, operands) = line.split_once(' ')?;
    let bytes: i32 = operands.rsplit(',').next()?.parse().ok()?;
    match mnemonic {
        "b" | "bl" | "bc" | "bcl" => Some(at.wrapping_add_signed(bytes)),
        "ba" | "bla" | "bca" | "bcla" => Some(bytes as u32),
        _ => None,
    }
}

/// The name of the special-purpose register.
fn spr(line: &str) -> Option<&'static str> {
    let (mnemonic, operands) = line.split_once(' ')?;
    let (first, last) = operands.split_once(',')?;
    match mnemonic {
        "mtspr" => registers::spr_name(first.parse().ok()?),
        "mfspr" => registers::spr_name(last.parse().ok()?),
        _ => None,
    }
}

#[cfg(test)]
mod tests {
    use super::*;
    use crate::registers::{State, IAR, REGISTERS};

    /// One step of a line at an address, from a state.
    fn step(profile: Profile, line: &str, at: u32, state: &mut State) {
        let mut memory = [0; 64];
        let word = profile.assemble(line.as_bytes()).unwrap();
        memory[at as usize..at as usize + 4].copy_from_slice(&word.to_be_bytes());
        state.put(IAR, at);
        assert_eq!(profile.step(state, &mut memory, 0).unwrap().count, 1);
    }

    #[test]
    fn branches_lead_where_the_core_goes() {
        for line in ["b 8", "bl -8", "ba 8", "bla -8", "bc 20,0,12", "bcl 20,0,-4", "bca 20,0,12", "bcla 20,0,-4"] {
            let mut state = State::zero();
            step(Profile::Ppe42, line, 16, &mut state);
            assert_eq!(target(line, 16), Some(state.get(IAR)), "{line}");
        }
        assert_eq!(target("bclr 20,0", 16), None);
    }

    #[test]
    fn special_purpose_registers_are_named() {
        for (number, profile) in (0..1024).flat_map(|number| Profile::BOTH.map(|profile| (number, profile))) {
            let line = format!("mfspr r3,{number}");
            let Some(name) = spr(&line) else {
                assert!(profile.assemble(line.as_bytes()).is_err(), "{line}");
                continue;
            };
            let place = registers::place_of(name).unwrap();
            let mut state = State::zero();
            state.put(place, REGISTERS[place].bits(profile).defined & 0x4555_5555);
            step(profile, &line, 0, &mut state);
            assert!(state.get(3) == state.get(place) && state.get(3) != 0, "{line}");
            assert_eq!(spr(&format!("mtspr {number},r3")), Some(name));
        }
    }

    #[test]
    fn a_line_is_its_word_unless_it_says_otherwise() {
        let mut word = 1u32;
        for _ in 0..200_000 {
            word = word.wrapping_mul(1_664_525).wrapping_add(1_013_904_223);
            for profile in Profile::BOTH {
                let whole = profile.assemble(instruction(profile, word).as_bytes()) == Ok(word);
                assert_eq!(whole, profile.legal(word) && unwritten(profile, word).is_none(), "{word:08X}");
            }
        }
    }
}
