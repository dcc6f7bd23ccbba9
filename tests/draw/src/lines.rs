//! Random lines for an assembler: good ones of every spelling, values at the edges of what is taken, and spoilt ones.
//! The table of spellings is written apart from any reader of lines.

use crate::forms::{REGISTERS, SPRS};
use crate::urn::Urn;
use std::sync::LazyLock;

/// The 42's spellings of 9.4 by their operands, of which each capital is one.
const SHAPES: [(&str, &str); 27] = [
    ("", "rfi sync"),
    ("R", "mfcr mfmsr mtcr0 mtmsr wrtee"),
    ("R,R", "cmplw cmpw cntlzw cntlzw. extsb extsb. extsh extsh."),
    ("R,R", "addme addme. addmeo addmeo. addze addze. addzeo addzeo. neg neg. nego nego."),
    ("R,R", "subfme subfme. subfmeo subfmeo. subfze subfze. subfzeo subfzeo."),
    ("R,R,R", "add add. addo addo. addc addc. addco addco. adde adde. addeo addeo. mullhw mullhw. mullhwu mullhwu."),
    ("R,R,R", "subf subf. subfo subfo. subfc subfc. subfco subfco. subfe subfe. subfeo subfeo. eqv eqv. nand nand."),
    ("R,R,R", "and and. andc andc. nor nor. or or. orc orc. slw slw. sraw sraw. srw srw. xor xor."),
    ("R,B,R", "lbzx lhzx lwzx stbx sthx stwx"),
    ("B,R", "dcbf dcbi dcbt dcbz"),
    ("R,B,S", "addi addis"),
    ("R,R,S", "addic addic. subfic"),
    ("R,R,U", "andi. andis. ori oris xori xoris"),
    ("R,S", "cmpwi"),
    ("R,U", "cmplwi"),
    ("R,S(B)", "lbz lhz lwz stb sth stw lvd stvd"),
    ("R,S(R)", "lbzu lhzu lwzu stbu sthu stwu lvdu stvdu"),
    ("R,R,F", "srawi srawi."),
    ("R,R,F,F,F", "rlwimi rlwimi. rlwinm rlwinm."),
    ("R,R,R,F,F", "rlwnm rlwnm."),
    ("J", "b bl ba bla"),
    ("F,C,K", "bc bcl bca bcla"),
    ("F,C", "bclr bclrl bcctr bcctrl"),
    ("R,N", "mfspr"),
    ("N,R", "mtspr"),
    ("T,R,R", "tw"),
    ("E", "wrteei"),
];

/// Those that the 42X has besides; Q is the stack pointer, mostly the same in both places.
const SHAPES_42X: [(&str, &str); 5] = [
    ("R,R,R", "mullw mullw. mullwo mullwo."),
    ("R,R,S", "mulli"),
    ("R,R,L,L", "rldicl rldicl. rldicr rldicr. rldimi rldimi."),
    ("Q,V(Q)", "lsku"),
    ("Q,W(Q)", "stsku"),
];

/// A mnemonic with its operands.
pub type Spelling = (&'static str, &'static str);

pub static SPELLINGS: LazyLock<Vec<Spelling>> = LazyLock::new(|| each_of(&SHAPES));

/// The 42X's: those of the 42 and its own.
pub static SPELLINGS_42X: LazyLock<Vec<Spelling>> = LazyLock::new(|| [each_of(&SHAPES), each_of(&SHAPES_42X)].concat());

fn each_of(shapes: &[(&'static str, &'static str)]) -> Vec<Spelling> {
    shapes.iter().flat_map(|(shape, mnemonics)| mnemonics.split(' ').map(move |mnemonic| (mnemonic, *shape))).collect()
}

/// Mnemonics that a core or 9.4's syntax lines lack.
const LACKING: &str = "li lis la mr not nop sub subi blr bctr beq bdnz trap mark slwi clrlwi mtlr mflr mtctr mulli \
     mullw mullw. lvdx stvdx lsku stsku lcxu stcxu slvd srvd. rldicl cmpwbc cmplwbc cmpwibc bnbw clrbwbc dcbq twi isync \
     lha lmw addic.. mtcrf mfcrr mocr0 andi ori. rfi. bclrla ADD Lwz rFI";

/// Where 32 signed bits end, and squares and products of halfwords that are about as large.
const LARGE: [i64; 14] = [
    0x7FFF_FFFE, 0x7FFF_FFFF, 0x8000_0000, 0x8000_0001, 0xFFFF_FFFF, 0x1_0000_0000, 0x1_0000_0001, 65535, 65536, 65537,
    32767, 32768, 46340, 46341,
];

/// Bytes that mean something in a line, or nearly.
const LIKELY: &[u8] = b"  ,,(()).+--**0012345678999xxXrrRabcdefABCDEFghlmoswz\t\n\r\0;:#/$%'\"[]";

/// How an operand is written.
#[derive(Clone, Copy, PartialEq, Eq)]
enum Manner {
    /// A number.
    Plain,
    /// A good value as an expression.
    Worked,
    /// A value at an edge of what is taken, as a number or an expression.
    Edge,
    /// An expression of large numbers, whatever it comes to.
    Wild,
    /// Brackets and minuses about as deep as they may be.
    Deep,
}

/// A line of the spellings, good or not.
pub fn draw_line(urn: &mut Urn, spellings: &[Spelling]) -> Vec<u8> {
    let mut line = match urn.below(20) {
        0..=4 => draw_written(urn, spellings, Manner::Plain),
        5..=9 => draw_written(urn, spellings, Manner::Worked),
        10..=11 => draw_written(urn, spellings, Manner::Edge),
        12..=14 => draw_written(urn, spellings, Manner::Wild),
        15 => draw_written(urn, spellings, Manner::Deep),
        16 => draw_long(urn, spellings),
        _ => draw_spoilt(urn, spellings),
    };
    if urn.percent(20) {
        spoil(urn, spellings, &mut line);
    }
    line
}

/// A line of some spelling; of its operands one is written in this manner, and the others are mostly plain.
fn draw_written(urn: &mut Urn, spellings: &[Spelling], manner: Manner) -> Vec<u8> {
    let (mnemonic, shape) = draw_spelling(urn, spellings, manner);
    let stack = if shape.contains('Q') { urn.pick(&REGISTERS[1..]) } else { 0 };
    let capitals: Vec<_> = (0..shape.len()).filter(|at| shape.as_bytes()[*at].is_ascii_uppercase()).collect();
    let numbers: Vec<_> = capitals.iter().copied().filter(|at| is_number(shape.as_bytes()[*at])).collect();
    let chosen = [numbers, capitals].into_iter().find(|places| !places.is_empty()).map(|places| urn.pick(&places));
    let mut line = mnemonic.to_string();
    if chosen.is_some() {
        line.push(' ');
    }
    for (at, letter) in shape.char_indices() {
        if !letter.is_ascii_uppercase() {
            line.push(letter);
            continue;
        }
        let other = match urn.below(100) {
            0..=2 => Manner::Edge,
            3..=15 => Manner::Worked,
            _ => Manner::Plain,
        };
        match letter {
            'Q' if !urn.percent(5) => line.push_str(&format!("r{stack}")),
            _ => line.push_str(&operand(urn, letter, if chosen == Some(at) { manner } else { other })),
        }
    }
    line.into_bytes()
}

/// Any, but mostly one that has a number if that is to be written in another manner than plainly.
fn draw_spelling(urn: &mut Urn, spellings: &[Spelling], manner: Manner) -> Spelling {
    loop {
        let (mnemonic, shape) = urn.pick(spellings);
        if manner == Manner::Plain || shape.bytes().any(is_number) || urn.percent(10) {
            return (mnemonic, shape);
        }
    }
}

/// Whether the letter is an operand that is no register.
fn is_number(letter: u8) -> bool {
    letter.is_ascii_uppercase() && !matches!(letter, b'R' | b'B' | b'Q')
}

fn operand(urn: &mut Urn, letter: char, manner: Manner) -> String {
    match (letter, manner) {
        ('B', _) if urn.percent(50) => "0".into(),
        ('R' | 'B' | 'Q', Manner::Edge | Manner::Wild) => format!("r{}", unlikely_register(urn)),
        ('R' | 'B' | 'Q', _) => format!("r{}{}", zeros(urn), urn.pick(&REGISTERS)),
        (_, Manner::Plain) => {
            let value = good(urn, letter);
            number(urn, value)
        }
        (_, Manner::Worked) => {
            let value = good(urn, letter);
            worked(urn, value)
        }
        (_, Manner::Edge) => {
            let value = edge(urn, letter);
            if urn.percent(50) {
                number(urn, value)
            } else {
                worked(urn, value)
            }
        }
        (_, Manner::Wild) => {
            let size = urn.below(7);
            wild(urn, size)
        }
        (_, Manner::Deep) => {
            let (value, openers) = (good(urn, letter), 14 + urn.below(5));
            nested(urn, value, openers)
        }
    }
}

/// Digits of a register that mostly is none of the sixteen.
fn unlikely_register(urn: &mut Urn) -> String {
    match urn.below(4) {
        0..=1 => urn.below(40).to_string(),
        2 => urn.pick(&LARGE).to_string(),
        _ => format!("{}{}", urn.draw(), urn.draw()),
    }
}

fn zeros(urn: &mut Urn) -> String {
    let count = if urn.percent(90) { 0 } else { urn.below(12) };
    "0".repeat(count as usize)
}

/// The least and the most that an operand may be.
fn range(letter: char) -> (i64, i64) {
    match letter {
        'S' => (-0x8000, 0x7FFF),
        'U' => (0, 0xFFFF),
        'J' => (-0x200_0000, 0x1FF_FFFC),
        'K' => (-0x8000, 0x7FFC),
        'C' => (0, 3),
        'E' => (0, 1),
        'L' => (0, 63),
        'N' => (1, 340),
        'V' => (8, 0x7FFF),
        'W' => (-0x8000, -1),
        _ => (0, 31),
    }
}

fn good(urn: &mut Urn, letter: char) -> i64 {
    let (least, most) = range(letter);
    let value = match urn.below(4) {
        0 => least + urn.below(16) as i64,
        1 => most - urn.below(16) as i64,
        2 if letter == 'W' => -1 - urn.below(64) as i64,
        2 => urn.below(256) as i64 - 64,
        _ => least + urn.below((most - least + 1) as u32) as i64,
    };
    match letter {
        'N' => urn.pick(&SPRS) as i64,
        'T' => urn.pick(&[0, 31]),
        'J' | 'K' => value.clamp(least, most) & !3,
        _ => value.clamp(least, most),
    }
}

fn edge(urn: &mut Urn, letter: char) -> i64 {
    let (least, most) = range(letter);
    let sign = urn.pick(&[-1, 1]);
    let about = urn.below(9) as i64 - 4;
    match urn.below(6) {
        0..=1 => least + about,
        2..=3 => most + about,
        4 => sign * urn.pick(&[0x8000, 0x1_0000, 0x200_0000, 1024]) + about,
        _ => sign * urn.pick(&LARGE),
    }
}

fn number(urn: &mut Urn, value: i64) -> String {
    let sign = if value < 0 { "-" } else { "" };
    let zeros = zeros(urn);
    let value = value.unsigned_abs();
    match urn.below(8) {
        0 => format!("{sign}0x{zeros}{value:x}"),
        1 => format!("{sign}0x{zeros}{value:X}"),
        2 => format!("{sign}0x{zeros}{}", either_case(urn, &format!("{value:x}"))),
        _ => format!("{sign}{zeros}{value}"),
    }
}

fn either_case(urn: &mut Urn, digits: &str) -> String {
    digits.chars().map(|digit| if urn.percent(50) { digit.to_ascii_uppercase() } else { digit }).collect()
}

/// An expression of this value.
fn worked(urn: &mut Urn, value: i64) -> String {
    if urn.percent(25) {
        let openers = urn.below(18);
        return nested(urn, value, openers);
    }
    let size = 1 + urn.below(8);
    sum(urn, value, size)
}

fn sum(urn: &mut Urn, value: i64, size: u32) -> String {
    if size == 0 || urn.percent(30) {
        return product(urn, value, size);
    }
    let left = urn.below(size);
    let right = size - 1 - left;
    let other = other_part(urn, value);
    if urn.percent(50) {
        format!("{}+{}", sum(urn, value - other, left), product(urn, other, right))
    } else {
        format!("{}-{}", sum(urn, value + other, left), product(urn, other, right))
    }
}

/// A part of a sum, now and then one with which the other comes to an end of 32 bits, or just over it.
fn other_part(urn: &mut Urn, value: i64) -> i64 {
    let about = urn.below(3) as i64 - 1;
    match urn.below(8) {
        0 => value - (0x7FFF_FFFF + about),
        1 => value + 0x8000_0000 + about,
        2 => urn.word() as i32 as i64,
        3 => urn.below(0x1_0000) as i64 - 0x8000,
        _ => urn.below(100) as i64 - 20,
    }
}

fn product(urn: &mut Urn, value: i64, size: u32) -> String {
    if size == 0 || urn.percent(50) {
        return factor(urn, value, size);
    }
    let left = urn.below(size);
    let right = size - 1 - left;
    if value == 0 && urn.percent(50) {
        return format!("{}*{}", wild_product(urn, left), factor(urn, 0, right));
    }
    let by = urn.pick(&[1, -1, 2, -2, 3, 4, -4, 5, 8, 16, 1024, 65536]);
    let by = if value % by == 0 { by } else { 1 };
    format!("{}*{}", product(urn, value / by, left), factor(urn, by, right))
}

fn factor(urn: &mut Urn, value: i64, size: u32) -> String {
    if size > 0 && urn.percent(40) {
        return format!("({})", sum(urn, value, size - 1));
    }
    if size > 0 && urn.percent(30) || value < 0 {
        return format!("-{}", factor(urn, -value, size.saturating_sub(1)));
    }
    number(urn, value)
}

/// The value in so many brackets and minuses; where it is negative and in none, there is one.
fn nested(urn: &mut Urn, value: i64, openers: u32) -> String {
    if openers == 0 {
        return number(urn, value);
    }
    if urn.percent(50) || openers == 1 && value < 0 {
        return format!("-{}", nested(urn, -value, openers - 1));
    }
    let other = urn.below(9) as i64;
    match urn.below(8) {
        0 => format!("({}+{other})", nested(urn, value - other, openers - 1)),
        1 => format!("({other}+{})", nested(urn, value - other, openers - 1)),
        2 => format!("({other}*0-{})", nested(urn, -value, openers - 1)),
        _ => format!("({})", nested(urn, value, openers - 1)),
    }
}

fn wild(urn: &mut Urn, size: u32) -> String {
    if size == 0 || urn.percent(30) {
        return wild_product(urn, size);
    }
    let left = urn.below(size);
    let right = size - 1 - left;
    format!("{}{}{}", wild(urn, left), urn.pick(&['+', '-']), wild_product(urn, right))
}

fn wild_product(urn: &mut Urn, size: u32) -> String {
    if size == 0 || urn.percent(40) {
        return wild_factor(urn, size);
    }
    let left = urn.below(size);
    let right = size - 1 - left;
    format!("{}*{}", wild_product(urn, left), wild_factor(urn, right))
}

fn wild_factor(urn: &mut Urn, size: u32) -> String {
    let value = match urn.below(16) {
        0..=4 => urn.pick(&LARGE[..2]),
        5..=6 => urn.pick(&LARGE),
        7 => return format!("{}{}{}", zeros(urn), urn.draw(), urn.draw()),
        8 => return format!("0x{:x}{:X}", urn.draw(), urn.draw()),
        9 => urn.word() as i64,
        _ => urn.below(5) as i64,
    };
    match urn.below(4) {
        0 if size > 0 => format!("({})", wild(urn, size - 1)),
        1 => format!("-{}", wild_factor(urn, size.saturating_sub(1))),
        2 if size > 0 => format!("-(-0x7fffffff-{})", urn.below(3)),
        _ => number(urn, value),
    }
}

/// A line lengthened to about the most bytes, or to many more, before one of its digits.
fn draw_long(urn: &mut Urn, spellings: &[Spelling]) -> Vec<u8> {
    let manner = urn.pick(&[Manner::Plain, Manner::Plain, Manner::Worked, Manner::Wild, Manner::Deep]);
    let mut line = draw_written(urn, spellings, manner);
    let length = if urn.percent(10) { 1000 } else { 254 + urn.below(7) as usize };
    let digits: Vec<_> = (0..line.len()).filter(|at| line[*at].is_ascii_digit()).collect();
    let at = if digits.is_empty() { line.len() } else { urn.pick(&digits) };
    let missing = length.saturating_sub(line.len());
    let unit: &[u8] = urn.pick(&[b"0", b"0", b"0", b"0", b"1*", b"0+", b"00-", b"(1)*", b"1--", b"9"]);
    let filling = unit.iter().copied().cycle().take(missing / unit.len() * unit.len());
    // The rest, so that the length is exact.
    let filling: Vec<u8> = filling.chain((0..missing % unit.len()).map(|_| b'0')).collect();
    line.splice(at..at, filling);
    line
}

/// A line with something wrong in it, or two or three things.
fn draw_spoilt(urn: &mut Urn, spellings: &[Spelling]) -> Vec<u8> {
    if urn.percent(3) {
        let mut bytes = vec![0; urn.below(20) as usize];
        urn.fill(&mut bytes);
        return bytes;
    }
    let manner = urn.pick(&[Manner::Plain, Manner::Plain, Manner::Worked, Manner::Wild]);
    let mut line = draw_written(urn, spellings, manner);
    for _ in 0..=urn.below(6) / 4 {
        spoil(urn, spellings, &mut line);
    }
    line
}

fn spoil(urn: &mut Urn, spellings: &[Spelling], line: &mut Vec<u8>) {
    let at = urn.below(line.len() as u32 + 1) as usize;
    let byte = if urn.percent(80) { urn.pick(LIKELY) } else { urn.word() as u8 };
    match urn.below(16) {
        0..=3 => line.iter_mut().skip(at).take(1).for_each(|changed| *changed = byte),
        4..=6 => drop(line.splice(at..line.len().min(at + 1), [])),
        7..=8 => line.splice(at..at, line.get(at).copied()).for_each(drop),
        9..=11 => line.insert(at, byte),
        12..=13 => line.truncate(at),
        14 => {
            let between = urn.pick(&[&b""[..], b" ", b"\n", b",", b"+"]);
            line.extend([between, &draw_written(urn, spellings, Manner::Plain)].concat());
        }
        _ => rename(urn, spellings, line),
    }
}

/// Gives the line a mnemonic that there is not, or that of other operands.
fn rename(urn: &mut Urn, spellings: &[Spelling], line: &mut Vec<u8>) {
    let lacking: Vec<_> = LACKING.split(' ').collect();
    let mnemonic = match urn.below(3) {
        0 => urn.pick(spellings).0.to_string(),
        1 => urn.pick(&lacking).to_string(),
        _ => (0..1 + urn.below(6)).map(|_| urn.pick(b"abcdeilmorstuwxz.") as char).collect(),
    };
    let end = line.iter().position(|byte| *byte == b' ').unwrap_or(line.len());
    line.splice(..end, mnemonic.into_bytes());
}
