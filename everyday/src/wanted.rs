//! What a refused line of assembly wants. The library alone has the grammar and the instructions, and is asked: with which
//! bytes a good beginning goes on, and which operand would be taken in another's place.

use crate::library::{Refused, MOST_LINE};
use crate::profile::Profile;
use crate::registers::{self, REGISTERS};
use std::sync::OnceLock;

/// What is wrong with the line, in words.
pub fn sentence(profile: Profile, line: &[u8], refused: Refused) -> String {
    let found = line.get(refused.column).copied();
    match refused.refusal {
        6 => operands_wrong(profile, line),
        11 if refused.column < MOST_LINE => not_in_grammar(profile, line, &line[..refused.column], found),
        11 if found.is_some() => {
            format!("the line is longer than {MOST_LINE} bytes, the most that one has; shorten it")
        }
        11 => format!("the line ends too early, with {MOST_LINE} bytes, the most that one has; shorten it"),
        12 => format!("the value that begins here is outside {} to {}", i32::MIN, i32::MAX),
        _ => "docs/CORE.md says what that is".into(),
    }
}

/// Whether some line goes on with this byte after a good beginning.
fn goes_on(profile: Profile, good: &[u8], byte: u8) -> bool {
    let line = [good, &[byte]].concat();
    !matches!(profile.assemble(&line), Err(Refused { refusal: 11, column }) if column <= good.len())
}

/// Whether a good beginning is a whole line.
fn ends(profile: Profile, good: &[u8]) -> bool {
    !matches!(profile.assemble(good), Err(Refused { refusal: 11, .. }))
}

/// After a good beginning no line goes on with the byte that was found, or none ends there.
fn not_in_grammar(profile: Profile, line: &[u8], good: &[u8], found: Option<u8>) -> String {
    let spelt = found.is_some_and(|found| found.is_ascii_alphabetic() || found == b'.');
    let wanted = if good.contains(&b' ') {
        one_of(operand(profile, good))
    } else if ends(profile, good) {
        "the end of the line".into()
    } else if !spelt && goes_on(profile, good, b' ') {
        "one space and the operands".into()
    } else {
        return format!("no such mnemonic{}", meant(profile, line, good, found));
    };
    match found {
        None => format!("the line ends too early; wanted is {wanted}"),
        Some(found) => format!("wanted here is {wanted}{}", hint(profile, good, found)),
    }
}

/// What bytes that are often mistaken tell.
fn hint(profile: Profile, good: &[u8], found: u8) -> &'static str {
    match found {
        b'A'..=b'Z' if goes_on(profile, good, found.to_ascii_lowercase()) => "; letters are lower-case",
        b' ' | b'\t' if !goes_on(profile, good, b' ') => "; a blank stands only between mnemonic and operands",
        _ => "",
    }
}

/// Mnemonics that are named one by one.
const NAMED: usize = 8;

/// Short forms that assemblers know, and what the manual's own are for them.
const SHORT: [(&str, &str); 15] = [
    ("li r3,5", "addi r3,0,5"),
    ("lis r3,5", "addis r3,0,5"),
    ("mr r3,r4", "or r3,r4,r4"),
    ("nop", "ori r0,r0,0"),
    ("sub r3,r4,r5", "subf r3,r5,r4"),
    ("slwi r3,r4,2", "rlwinm r3,r4,2,0,29"),
    ("mflr r0", "mfspr r0,8"),
    ("mtlr r0", "mtspr 8,r0"),
    ("mtctr r0", "mtspr 9,r0"),
    ("blr", "bclr 20,0"),
    ("bctr", "bcctr 20,0"),
    ("beq 8", "bc 12,2,8"),
    ("bne 8", "bc 4,2,8"),
    ("bdnz 8", "bc 16,0,8"),
    ("trap", "tw 31,r0,r0"),
];

/// What could be meant by a mnemonic that is none.
fn meant(profile: Profile, line: &[u8], good: &[u8], found: Option<u8>) -> String {
    if let Some((short, own)) = SHORT.iter().find(|(short, _)| name(short.as_bytes()) == name(line)) {
        return format!("; for {short} write {own}");
    }
    if profile.wider().is_some_and(|wider| mnemonics(wider).iter().any(|known| known.as_bytes() == name(line))) {
        return "; a PPE 42X has it: give --42x".into();
    }
    let known: Vec<&str> =
        mnemonics(profile).iter().filter(|name| name.as_bytes().starts_with(good)).map(String::as_str).collect();
    match found {
        _ if known.len() <= NAMED => format!("; beginning with {}: {}", String::from_utf8_lossy(good), known.join(" ")),
        Some(found) if good.is_empty() => hint(profile, good, found).into(),
        _ => String::new(),
    }
}

fn name(line: &[u8]) -> &[u8] {
    line.split(|&byte| byte == b' ').next().unwrap_or_default()
}

/// All mnemonics of a profile, found letter by letter, once.
fn mnemonics(profile: Profile) -> &'static [String] {
    static FOUND: [OnceLock<Vec<String>>; 2] = [OnceLock::new(), OnceLock::new()];
    FOUND[profile as usize].get_or_init(|| {
        let mut found = Vec::new();
        let mut beginnings = vec![String::new()];
        while let Some(good) = beginnings.pop() {
            let letters = (b'a'..=b'z').chain(b'0'..=b'9').chain([b'.']);
            let longer = letters.filter(|&letter| goes_on(profile, good.as_bytes(), letter));
            beginnings.extend(longer.map(|letter| format!("{good}{}", letter as char)));
            if ends(profile, good.as_bytes()) || goes_on(profile, good.as_bytes(), b' ') {
                found.push(good);
            }
        }
        found.sort();
        found
    })
}

/// What may come next among the operands.
fn operand(profile: Profile, good: &[u8]) -> Vec<&'static str> {
    let on = |byte: u8| goes_on(profile, good, byte);
    match good.last() {
        _ if ends(profile, good) || on(b'+') || on(b',') || on(b')') => follows(profile, good),
        _ if on(b'r') && on(b'0') => vec!["a register (r and its number) or 0"],
        _ if on(b'r') => vec!["a register (r and its number)"],
        _ if on(b'(') => vec!["a value: a number, ( or -"],
        _ if on(b'a') => vec!["a hex digit"],
        Some(b'r') => vec!["the number of a register"],
        _ => vec!["a number; brackets and minuses are 16 deep already"],
    }
}

/// What follows something that may be whole.
fn follows(profile: Profile, good: &[u8]) -> Vec<&'static str> {
    let on = |byte: u8| goes_on(profile, good, byte);
    let parts = [
        (ends(profile, good), "the end of the line"),
        (on(b','), "a comma and the next operand"),
        (on(b'('), "( and a register"),
        (on(b')'), ")"),
        (on(b'+'), "+ - *"),
        (on(b'x'), "x and hex digits"),
        (on(b'1') && on(b'a'), "more hex digits"),
        (on(b'1') && !on(b'a'), "more digits"),
    ];
    parts.into_iter().filter(|(there, _)| *there).map(|(_, words)| words).collect()
}

fn one_of(mut parts: Vec<&str>) -> String {
    let last = parts.pop().unwrap_or_default();
    if parts.is_empty() {
        return last.into();
    }
    format!("{}, or {last}", parts.join(", "))
}

/// Operands of which one at least is taken in any place of any instruction, but where two registers must be the same.
const TRIED: [&str; 7] = ["r2", "r5", "r28", "0", "8", "20", "-8"];

/// Numbers that fields take: the least, the most, and the step between them.
const FIELDS: [(i64, i64, i64); 10] = [
    (-32768, 32767, 1),
    (0, 65535, 1),
    (0, 63, 1),
    (0, 31, 1),
    (0, 3, 1),
    (0, 1, 1),
    (8, 32767, 1),
    (-32768, -1, 1),
    (-32768, 32764, 4),
    (-33554432, 33554428, 4),
];

/// The operands make no instruction: the registers that the core lacks, or else which operand, if another in its place alone
/// does.
fn operands_wrong(profile: Profile, line: &[u8]) -> String {
    let operands = operands(line);
    let lacking: Vec<String> = operands.iter().filter_map(|&operand| lacking(&line[operand.0..operand.1])).collect();
    if !lacking.is_empty() {
        return format!("the core has no {}; it has {}", lacking.join(" and no "), numbered());
    }
    let mended: Vec<usize> = (0..operands.len()).filter(|&k| mended(profile, line, operands[k])).collect();
    match mended[..] {
        [] => "these operands make no instruction: more than one does not fit, or cannot stand there".into(),
        [k] => format!("operand {}, {}", k + 1, operand_wrong(profile, line, operands[k])),
        _ => {
            let numbers: Vec<String> = mended.iter().map(|k| (k + 1).to_string()).collect();
            format!("operands {} do not go together", numbers.join(" and "))
        }
    }
}

/// A register that the core does not have.
fn lacking(operand: &[u8]) -> Option<String> {
    let number: Option<u8> = String::from_utf8_lossy(operand.strip_prefix(b"r")?).parse().ok();
    let known = number.and_then(|number| registers::place_of(&format!("r{number}")));
    known.is_none().then(|| short(operand))
}

/// The registers that have a number.
fn numbered() -> String {
    let names = REGISTERS.iter().map(|register| register.name);
    names.filter(|name| name.starts_with('r')).collect::<Vec<_>>().join(" ")
}

/// Where operands begin and end. In a line of the grammar a comma stands only between them, and a bracket behind a digit or
/// another bracket only before a base register.
fn operands(line: &[u8]) -> Vec<(usize, usize)> {
    let first = line.iter().position(|&byte| byte == b' ').map_or(line.len(), |space| space + 1);
    let (mut from, mut end) = (first, line.len());
    let mut found = Vec::new();
    for at in first..line.len() {
        let based = line[at] == b'(' && (line[at - 1].is_ascii_hexdigit() || line[at - 1] == b')');
        if based || line[at] == b',' {
            found.push((from, at));
            from = at + 1;
        }
        if based {
            end -= 1;
        }
    }
    found.push((from, end));
    found
}

/// Whether the line with another operand there is an instruction.
fn takes(profile: Profile, line: &[u8], (from, to): (usize, usize), other: &str) -> bool {
    profile.assemble(&[&line[..from], other.as_bytes(), &line[to..]].concat()).is_ok()
}

/// Whether some other operand in that place alone makes an instruction: one that is tried or, where two registers must be the
/// same, another of the line.
fn mended(profile: Profile, line: &[u8], at: (usize, usize)) -> bool {
    let others = operands(line).into_iter().map(|(from, to)| String::from_utf8_lossy(&line[from..to]).into_owned());
    TRIED.iter().map(ToString::to_string).chain(others).any(|other| takes(profile, line, at, &other))
}

/// Bytes of an operand that are shown.
const SHOWN: usize = 24;

fn short(operand: &[u8]) -> String {
    let more = if operand.len() > SHOWN { ".." } else { "" };
    format!("{}{more}", String::from_utf8_lossy(&operand[..operand.len().min(SHOWN)]))
}

fn operand_wrong(profile: Profile, line: &[u8], at: (usize, usize)) -> String {
    let operand = short(&line[at.0..at.1]);
    match field(profile, line, at) {
        Some((least, most, 1)) => format!("{operand}, does not fit; {least} to {most} do"),
        Some((least, most, step)) => format!("{operand}, does not fit; multiples of {step} from {least} to {most} do"),
        None => format!("{operand}, cannot stand there; another can"),
    }
}

/// The field that is taken from end to end, as far as some thirty numbers of it tell, and nothing beyond it.
fn field(profile: Profile, line: &[u8], at: (usize, usize)) -> Option<(i64, i64, i64)> {
    let taken = |number: i64| takes(profile, line, at, &number.to_string());
    let fits = |&(least, most, step): &(i64, i64, i64)| {
        let stride = step * ((most - least) / step / 32 + 1);
        let inside = (least..=most).step_by(stride as usize).chain([most]).all(taken);
        inside && !taken(least - step) && !taken(most + step) && (step == 1 || !taken(least + 1))
    };
    FIELDS.into_iter().find(fits)
}

#[cfg(test)]
mod tests {
    use super::*;
    use std::collections::BTreeSet;

    #[test]
    fn mnemonics_are_all_found() {
        let [of_42, of_42x] = Profile::BOTH.map(|profile| mnemonics(profile).iter().collect::<BTreeSet<_>>());
        assert_eq!(of_42.len(), 148);
        assert!(["addco.", "mtcr0", "rfi", "stvdu"].iter().all(|name| of_42.contains(&name.to_string())));
        assert!(of_42.is_subset(&of_42x));
        let further: Vec<&str> = of_42x.difference(&of_42).map(|name| name.as_str()).collect();
        let mullw = ["mullw", "mullw.", "mullwo", "mullwo."];
        let doublewords = ["rldicl", "rldicl.", "rldicr", "rldicr.", "rldimi", "rldimi."];
        assert_eq!(further, [&["lsku", "mulli"], &mullw[..], &doublewords, &["stsku"]].concat());
    }

    /// Against the words that GNU as writes for the short forms.
    #[test]
    fn short_forms_are_written_right() {
        let words = [
            0x38600005, 0x3C600005, 0x7C832378, 0x60000000, 0x7C652050, 0x5483103A, 0x7C0802A6, 0x7C0803A6, 0x7C0903A6,
            0x4E800020, 0x4E800420, 0x41820008, 0x40820008, 0x42000008, 0x7FE00008,
        ];
        for profile in Profile::BOTH {
            for ((short, own), word) in SHORT.iter().zip(words) {
                assert_eq!(profile.assemble(own.as_bytes()), Ok(word), "{short}");
                assert!(profile.assemble(short.as_bytes()).is_err(), "{short}");
            }
        }
    }

    /// A line that begins so, put together from what is tried.
    fn sample(profile: Profile, good: &str) -> Option<String> {
        if profile.assemble(good.as_bytes()).is_ok() {
            return Some(good.into());
        }
        let whole = good.ends_with(|letter: char| letter.is_ascii_alphanumeric() || letter == '.');
        let next: &[&str] = if whole { &[" ", ",", "(", ")"] } else { &TRIED };
        let longer = next.iter().filter(|next| goes_on(profile, good.as_bytes(), next.as_bytes()[0]));
        longer.map(|next| format!("{good}{next}")).find_map(|line| sample(profile, &line))
    }

    /// Lines of every mnemonic, of words that differ from one of its own in up to two bits; but not those that are no line by
    /// themselves, as of a 42X's tw with TG and any registers.
    fn lines(profile: Profile) -> BTreeSet<Vec<u8>> {
        let mut lines = BTreeSet::new();
        for name in mnemonics(profile) {
            let word = profile.assemble(sample(profile, name).expect(name).as_bytes()).expect(name);
            let bits = (0..32).flat_map(|one| (one..32).map(move |other| 1 << one ^ 1 << other));
            let near = bits.filter_map(|bits: u32| profile.disassemble(word ^ bits)).map(|line| line.text.into_bytes());
            lines.extend(near.filter(|line| profile.assemble(line).is_ok()));
        }
        lines
    }

    /// The bytes that something wanted begins with.
    fn begins(wanted: &str) -> &'static [u8] {
        match wanted {
            "the end of the line" => b"",
            "a comma and the next operand" => b",",
            "( and a register" => b"(",
            ")" => b")",
            "+ - *" => b"+-*",
            "x and hex digits" => b"x",
            "a hex digit" | "more hex digits" => b"0123456789ABCDEFabcdef",
            "a register (r and its number) or 0" => b"r0",
            "a register (r and its number)" => b"r",
            "a value: a number, ( or -" => b"0123456789(-",
            _ => b"0123456789",
        }
    }

    #[test]
    fn what_is_wanted_is_all_that_goes_on() {
        for profile in Profile::BOTH {
            let further = ["b -(-(-(-(-(-(-(-(0x1F+20)*3)))))))", "lwz r3,-0(0)"].map(String::from);
            let lines = mnemonics(profile).iter().filter_map(|name| sample(profile, name)).chain(further);
            lines.for_each(|line| all_that_goes_on(profile, &line));
        }
    }

    fn all_that_goes_on(profile: Profile, line: &str) {
        for end in name(line.as_bytes()).len() + 1..=line.len() {
            let good = &line.as_bytes()[..end];
            let wanted = operand(profile, good);
            let bytes: BTreeSet<u8> = wanted.iter().flat_map(|wanted| begins(wanted)).copied().collect();
            assert!((0..=255).all(|byte| goes_on(profile, good, byte) == bytes.contains(&byte)), "{}", &line[..end]);
            assert_eq!(ends(profile, good), wanted.contains(&"the end of the line"), "{}", &line[..end]);
        }
    }

    /// So that where none of them mends a line, more than one operand is wrong.
    #[test]
    fn something_tried_is_taken_in_every_place() {
        let of = |profile| lines(profile).into_iter().map(move |line| (profile, line));
        for (profile, line) in Profile::BOTH.into_iter().flat_map(of) {
            for operand in operands(&line).into_iter().filter(|operand| operand.0 < operand.1) {
                assert!(mended(profile, &line, operand), "{}", String::from_utf8_lossy(&line));
            }
        }
    }

    #[test]
    fn what_is_said_to_fit_is_taken() {
        for profile in Profile::BOTH {
            let mut seen = BTreeSet::new();
            for line in lines(profile).into_iter().filter(|line| seen.insert(name(line).to_vec())) {
                operands(&line).into_iter().for_each(|operand| all_is_taken(profile, &line, operand));
            }
            assert_eq!(seen.len(), mnemonics(profile).len());
        }
    }

    fn all_is_taken(profile: Profile, line: &[u8], operand: (usize, usize)) {
        let Some((least, most, step)) = field(profile, line, operand) else { return };
        let stride = step * ((most - least) / step / 1000 + 1);
        for number in (least..=most).step_by(stride as usize) {
            assert!(takes(profile, line, operand, &number.to_string()), "{} {number}", String::from_utf8_lossy(line));
        }
    }
}
