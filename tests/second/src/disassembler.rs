//! How 9.4 writes each instruction: its spellings and operands with their places in the word, and the line of a word.

use crate::profile::Profile;
use crate::word::{Kind, Word};
use std::sync::LazyLock;

/// An operand, by its place in the word: shifts count from the right.
#[derive(Clone, Copy)]
pub enum Operand {
    Register {
        shift: u32,
    },
    /// RA where 9.4 reads (RA|0): a lone 0 stands for r0.
    Base,
    Unsigned {
        shift: u32,
        width: u32,
    },
    /// At the right end.
    Signed {
        width: u32,
    },
    /// The same in bytes, of which the last two bits are 0 and have no place.
    Target {
        width: u32,
    },
    /// Its halves stand in the word in reverse order.
    Spr,
    /// Six bits without a sign, of which the highest stands apart from the others.
    Split {
        low: u32,
        high: u32,
    },
    /// Bytes of which the last three bits are dropped: their places hold other things.
    Frame,
}

const RA: u32 = 16;

impl Operand {
    /// By the name in a syntax line; where 9.4 says target, it is that of the field.
    fn named(name: &str) -> Operand {
        match name {
            "RT" | "RS" | "DT" | "DS" => Operand::Register { shift: 21 },
            "RA" | "DA" => Operand::Register { shift: RA },
            "RB" => Operand::Register { shift: 11 },
            "RA|0" => Operand::Base,
            "SI" | "D" => Operand::Signed { width: 16 },
            "UI" => Operand::Unsigned { shift: 0, width: 16 },
            "BO" | "TO" => Operand::Unsigned { shift: 21, width: 5 },
            "BI" => Operand::Unsigned { shift: 16, width: 5 },
            "SH" => Operand::Unsigned { shift: 11, width: 5 },
            "MB" => Operand::Unsigned { shift: 6, width: 5 },
            "ME" => Operand::Unsigned { shift: 1, width: 5 },
            "E" => Operand::Unsigned { shift: 15, width: 1 },
            "LI" => Operand::Target { width: 26 },
            "BD" => Operand::Target { width: 16 },
            "SPRN" => Operand::Spr,
            "SH64" => Operand::Split { low: 11, high: 1 },
            "MB64" | "ME64" => Operand::Split { low: 6, high: 5 },
            "DD" => Operand::Frame,
            _ => panic!("no operand is called {name}"),
        }
    }

    /// A value's bits in the word, or nothing if the field cannot hold it.
    fn put(self, value: i64) -> Option<u32> {
        match self {
            Operand::Register { shift } => unsigned(value, 5).map(|bits| bits << shift),
            Operand::Base => unsigned(value, 5).map(|bits| bits << RA),
            Operand::Unsigned { shift, width } => unsigned(value, width).map(|bits| bits << shift),
            Operand::Signed { width } => signed(value, width),
            Operand::Target { width } => signed(value, width).filter(|bits| bits % 4 == 0),
            Operand::Spr => unsigned(value, 10).map(|bits| (bits & 31) << 16 | bits >> 5 << 11),
            Operand::Split { low, high } => unsigned(value, 6).map(|bits| (bits & 31) << low | bits >> 5 << high),
            Operand::Frame => signed(value, 16).map(|bits| bits & !7),
        }
    }

    /// The value that a word has there.
    fn get(self, word: u32) -> i64 {
        let field = |shift: u32, width: u32| (word >> shift & ((1 << width) - 1)) as i64;
        let extended = |width: u32| ((word << (32 - width)) as i32 >> (32 - width)) as i64;
        match self {
            Operand::Register { shift } => field(shift, 5),
            Operand::Base => field(RA, 5),
            Operand::Unsigned { shift, width } => field(shift, width),
            Operand::Signed { width } => extended(width),
            Operand::Target { width } => extended(width) & !3,
            Operand::Spr => field(11, 5) << 5 | field(16, 5),
            Operand::Split { low, high } => field(high, 1) << 5 | field(low, 5),
            Operand::Frame => extended(16) & !7,
        }
    }

    fn text(self, value: i64) -> String {
        match self {
            Operand::Base if value == 0 => "0".into(),
            Operand::Base | Operand::Register { .. } => format!("r{value}"),
            _ => value.to_string(),
        }
    }
}

fn unsigned(value: i64, width: u32) -> Option<u32> {
    (0..1 << width).contains(&value).then_some(value as u32)
}

fn signed(value: i64, width: u32) -> Option<u32> {
    let half = 1 << (width - 1);
    (-half..half).contains(&value).then_some(value as u32 & ((1 << width) - 1))
}

/// What follows a mnemonic: a comma or a bracket, or an operand.
#[derive(Clone, Copy)]
pub enum Part {
    Mark(u8),
    Operand(Operand),
}

/// A mnemonic with what follows its space.
pub struct Spelling {
    pub mnemonic: String,
    pub parts: Vec<Part>,
    kind: Kind,
    /// The word with every operand 0.
    fixed: u32,
    /// The bits that tell the spellings of this instruction apart.
    telling: u32,
}

impl Spelling {
    fn operands(&self) -> impl Iterator<Item = Operand> + '_ {
        self.parts.iter().filter_map(|part| match part {
            Part::Operand(operand) => Some(*operand),
            Part::Mark(_) => None,
        })
    }

    /// The word of these operands, in the order of the syntax line, or nothing if there is no such instruction.
    pub fn word(&self, profile: Profile, values: &[i64]) -> Option<u32> {
        let mut word = self.fixed;
        for (operand, value) in self.operands().zip(values) {
            word |= operand.put(*value)?;
        }
        (Word(word).kind(profile) == Some(self.kind)).then_some(word)
    }

    fn line(&self, word: u32) -> String {
        let mut line = self.mnemonic.clone();
        for (place, part) in self.parts.iter().enumerate() {
            if place == 0 {
                line.push(' ');
            }
            match part {
                Part::Mark(mark) => line.push(*mark as char),
                Part::Operand(operand) => line.push_str(&operand.text(operand.get(word))),
            }
        }
        line
    }
}

/// The line of a legal word.
#[derive(Debug, PartialEq, Eq)]
pub struct Line {
    pub text: String,
    /// Whether a field that 9.4 does not write is not 0; the line is then that of the word with it 0, which on a 42X may be
    /// illegal where the field is TG.
    pub unwritten: bool,
}

/// Nothing for an illegal word.
pub fn disassemble(profile: Profile, word: u32) -> Option<Line> {
    let kind = Word(word).kind(profile)?;
    let mut spellings = spellings(profile).iter().filter(|spelling| spelling.kind == kind);
    let spelling = spellings.find(|spelling| word & spelling.telling == spelling.fixed & spelling.telling)?;
    let values: Vec<_> = spelling.operands().map(|operand| operand.get(word)).collect();
    Some(Line { text: spelling.line(word), unwritten: spelling.word(profile, &values) != Some(word) })
}

/// The letters and marks that 9.4 adds to a mnemonic, and the bits that they set.
type Endings = &'static [(&'static str, u32)];

const NONE: Endings = &[("", 0)];
const RC: Endings = &[("", 0), (".", 1)];
const OE_RC: Endings = &[("", 0), (".", 1), ("o", 1 << 10), ("o.", 1 << 10 | 1)];
const LK: Endings = &[("", 0), ("l", 1)];
const AA_LK: Endings = &[("", 0), ("l", 1), ("a", 2), ("la", 3)];

/// All of 9.4's syntax lines for the instructions that the core has.
pub fn spellings(profile: Profile) -> &'static [Spelling] {
    &SPELLINGS[profile as usize]
}

static SPELLINGS: LazyLock<[Vec<Spelling>; 2]> = LazyLock::new(|| Profile::BOTH.map(spellings_of));

fn spellings_of(profile: Profile) -> Vec<Spelling> {
    let rows = SYNTAX.iter().zip(Kind::ALL).filter(|(_, kind)| profile.has(*kind));
    rows.flat_map(|(row, kind)| row.1.iter().map(move |ending| spelling(row, kind, ending))).collect()
}

fn spelling(row: &(&str, Endings, u32, &str), kind: Kind, ending: &(&str, u32)) -> Spelling {
    let (mnemonic, endings, fixed, operands) = row;
    Spelling {
        mnemonic: format!("{mnemonic}{}", ending.0),
        parts: parts(operands),
        kind,
        fixed: fixed | ending.1,
        telling: endings.iter().fold(0, |bits, ending| bits | ending.1),
    }
}

fn parts(mut operands: &str) -> Vec<Part> {
    let mut parts = vec![];
    while !operands.is_empty() {
        let end = operands.find([',', '(', ')']).unwrap_or(operands.len());
        let (name, rest) = operands.split_at(end);
        if !name.is_empty() {
            parts.push(Part::Operand(Operand::named(name)));
        }
        parts.extend(rest.bytes().take(1).map(Part::Mark));
        operands = rest.get(1..).unwrap_or("");
    }
    parts
}

const fn primary(opcode: u32) -> u32 {
    opcode << 26
}

const fn extended(opcode: u32) -> u32 {
    31 << 26 | opcode << 1
}

/// The syntax lines in 9.4's order, which is that of `Kind::ALL`: mnemonic, its endings, the word with all of it 0, and
/// operands. Opcodes are Power ISA's, those of doublewords from Table 1.68, those of lsku and stsku from Table 1.69.
const SYNTAX: [(&str, Endings, u32, &str); 94] = [
    ("add", OE_RC, extended(266), "RT,RA,RB"),
    ("addc", OE_RC, extended(10), "RT,RA,RB"),
    ("adde", OE_RC, extended(138), "RT,RA,RB"),
    ("addi", NONE, primary(14), "RT,RA|0,SI"),
    ("addic", NONE, primary(12), "RT,RA,SI"),
    ("addic.", NONE, primary(13), "RT,RA,SI"),
    ("addis", NONE, primary(15), "RT,RA|0,SI"),
    ("addme", OE_RC, extended(234), "RT,RA"),
    ("addze", OE_RC, extended(202), "RT,RA"),
    ("and", RC, extended(28), "RA,RS,RB"),
    ("andc", RC, extended(60), "RA,RS,RB"),
    ("andi.", NONE, primary(28), "RA,RS,UI"),
    ("andis.", NONE, primary(29), "RA,RS,UI"),
    ("b", AA_LK, primary(18), "LI"),
    ("bc", AA_LK, primary(16), "BO,BI,BD"),
    ("bcctr", LK, primary(19) | 528 << 1, "BO,BI"),
    ("bclr", LK, primary(19) | 16 << 1, "BO,BI"),
    ("cmplw", NONE, extended(32), "RA,RB"),
    ("cmplwi", NONE, primary(10), "RA,UI"),
    ("cmpw", NONE, extended(0), "RA,RB"),
    ("cmpwi", NONE, primary(11), "RA,SI"),
    ("cntlzw", RC, extended(26), "RA,RS"),
    ("dcbf", NONE, extended(86), "RA|0,RB"),
    ("dcbi", NONE, extended(470), "RA|0,RB"),
    ("dcbt", NONE, extended(278), "RA|0,RB"),
    ("dcbz", NONE, extended(1014), "RA|0,RB"),
    ("eqv", RC, extended(284), "RA,RS,RB"),
    ("extsb", RC, extended(954), "RA,RS"),
    ("extsh", RC, extended(922), "RA,RS"),
    ("lbz", NONE, primary(34), "RT,D(RA|0)"),
    ("lbzu", NONE, primary(35), "RT,D(RA)"),
    ("lbzx", NONE, extended(87), "RT,RA|0,RB"),
    ("lhz", NONE, primary(40), "RT,D(RA|0)"),
    ("lhzu", NONE, primary(41), "RT,D(RA)"),
    ("lhzx", NONE, extended(279), "RT,RA|0,RB"),
    ("lsku", NONE, primary(58) | 3, "RT,DD(RA)"),
    ("lvd", NONE, primary(5), "DT,D(RA|0)"),
    ("lvdu", NONE, primary(9), "DT,D(RA)"),
    ("lwz", NONE, primary(32), "RT,D(RA|0)"),
    ("lwzu", NONE, primary(33), "RT,D(RA)"),
    ("lwzx", NONE, extended(23), "RT,RA|0,RB"),
    ("mfcr", NONE, extended(19), "RT"),
    ("mfmsr", NONE, extended(83), "RT"),
    ("mfspr", NONE, extended(339), "RT,SPRN"),
    // The mask that names CR0 is part of the word.
    ("mtcr0", NONE, extended(144) | 0x80 << 12, "RS"),
    ("mtmsr", NONE, extended(146), "RS"),
    ("mtspr", NONE, extended(467), "SPRN,RS"),
    ("mullhw", RC, primary(4) | 424 << 1, "RT,RA,RB"),
    ("mullhwu", RC, primary(4) | 392 << 1, "RT,RA,RB"),
    ("mulli", NONE, primary(7), "RT,RA,SI"),
    ("mullw", OE_RC, extended(235), "RT,RA,RB"),
    ("nand", RC, extended(476), "RA,RS,RB"),
    ("neg", OE_RC, extended(104), "RT,RA"),
    ("nor", RC, extended(124), "RA,RS,RB"),
    ("or", RC, extended(444), "RA,RS,RB"),
    ("orc", RC, extended(412), "RA,RS,RB"),
    ("ori", NONE, primary(24), "RA,RS,UI"),
    ("oris", NONE, primary(25), "RA,RS,UI"),
    ("rfi", NONE, primary(19) | 50 << 1, ""),
    ("rldicl", RC, primary(30), "DA,DS,SH64,MB64"),
    ("rldicr", RC, primary(30) | 1 << 2, "DA,DS,SH64,ME64"),
    ("rldimi", RC, primary(30) | 3 << 2, "DA,DS,SH64,MB64"),
    ("rlwimi", RC, primary(20), "RA,RS,SH,MB,ME"),
    ("rlwinm", RC, primary(21), "RA,RS,SH,MB,ME"),
    ("rlwnm", RC, primary(23), "RA,RS,RB,MB,ME"),
    ("slw", RC, extended(24), "RA,RS,RB"),
    ("sraw", RC, extended(792), "RA,RS,RB"),
    ("srawi", RC, extended(824), "RA,RS,SH"),
    ("srw", RC, extended(536), "RA,RS,RB"),
    ("stb", NONE, primary(38), "RS,D(RA|0)"),
    ("stbu", NONE, primary(39), "RS,D(RA)"),
    ("stbx", NONE, extended(215), "RS,RA|0,RB"),
    ("sth", NONE, primary(44), "RS,D(RA|0)"),
    ("sthu", NONE, primary(45), "RS,D(RA)"),
    ("sthx", NONE, extended(407), "RS,RA|0,RB"),
    ("stsku", NONE, primary(62) | 3, "RS,DD(RA)"),
    ("stvd", NONE, primary(6), "DS,D(RA|0)"),
    ("stvdu", NONE, primary(22), "DS,D(RA)"),
    ("stw", NONE, primary(36), "RS,D(RA|0)"),
    ("stwu", NONE, primary(37), "RS,D(RA)"),
    ("stwx", NONE, extended(151), "RS,RA|0,RB"),
    ("subf", OE_RC, extended(40), "RT,RA,RB"),
    ("subfc", OE_RC, extended(8), "RT,RA,RB"),
    ("subfe", OE_RC, extended(136), "RT,RA,RB"),
    ("subfic", NONE, primary(8), "RT,RA,SI"),
    ("subfme", OE_RC, extended(232), "RT,RA"),
    ("subfze", OE_RC, extended(200), "RT,RA"),
    ("sync", NONE, extended(598), ""),
    ("tw", NONE, extended(4), "TO,RA,RB"),
    ("wrtee", NONE, extended(131), "RS"),
    ("wrteei", NONE, extended(163), "E"),
    ("xor", RC, extended(316), "RA,RS,RB"),
    ("xori", NONE, primary(26), "RA,RS,UI"),
    ("xoris", NONE, primary(27), "RA,RS,UI"),
];
