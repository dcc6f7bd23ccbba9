//! The legal words, as a table of fixed bits and free fields. It is written apart from any reader of words, so that a
//! reader can be held against it.

use crate::urn::Urn;
use std::sync::LazyLock;

/// The sixteen defined registers; the first is the one that bases of update forms leave out.
pub const REGISTERS: [u32; 16] = [0, 1, 2, 3, 4, 5, 6, 7, 8, 9, 10, 13, 28, 29, 30, 31];

/// Those with a defined register after them, which is 0 after 31: the first registers of the pairs.
const PAIRS: [u32; 14] = [0, 1, 2, 3, 4, 5, 6, 7, 8, 9, 28, 29, 30, 31];

/// The sixteen SPR numbers; the last three cannot be written.
pub const SPRS: [u32; 16] = [1, 8, 9, 22, 26, 27, 61, 62, 272, 308, 316, 336, 340, 63, 286, 287];
const WRITABLE: usize = 13;

/// What a field may hold.
#[derive(Clone, Copy)]
enum Values {
    Any {
        width: u32,
    },
    /// A signed number that is mostly small and often a multiple of the unit.
    Offset {
        width: u32,
        unit: u32,
    },
    Listed(&'static [u32]),
    Sprs(&'static [u32]),
    /// A listed value that stands in this field of five bits and in the next one to the left.
    Twice(&'static [u32]),
    /// Thirteen bits of doublewords, from the least on and mostly near it; a negative number from -1 down.
    Frame {
        negative: bool,
    },
}

/// Values, and how far the field stands from the word's right end.
#[derive(Clone, Copy)]
struct Field {
    values: Values,
    shift: u32,
}

/// One instruction: its mnemonic, the word with all fields zero, and the fields.
pub struct Form {
    pub mnemonic: &'static str,
    fixed: u32,
    fields: &'static [Field],
    /// RA must be none of so many registers from RT on: those that an update load loads.
    apart: u32,
}

impl Field {
    fn count(&self) -> u64 {
        match self.values {
            Values::Any { width } | Values::Offset { width, .. } => 1 << width,
            Values::Listed(values) | Values::Sprs(values) | Values::Twice(values) => values.len() as u64,
            Values::Frame { negative: false } => MOST_FRAME as u64,
            Values::Frame { negative: true } => MOST_FRAME as u64 + 1,
        }
    }

    /// The bits that it has in the word: five where values are listed, which are registers and TO.
    fn bits(&self) -> u32 {
        let width = match self.values {
            Values::Any { width } | Values::Offset { width, .. } => width,
            Values::Listed(_) => 5,
            Values::Sprs(_) | Values::Twice(_) => 10,
            Values::Frame { .. } => 13,
        };
        ((1 << width) - 1) << self.shift
    }

    fn draw(&self, urn: &mut Urn) -> u32 {
        let value = match self.values {
            Values::Any { width } => urn.word() & ((1 << width) - 1),
            Values::Offset { width, unit } => draw_offset(urn, unit) & ((1 << width) - 1),
            Values::Listed(values) => urn.pick(values),
            Values::Sprs(numbers) => swapped(urn.pick(numbers)),
            Values::Twice(values) => urn.pick(values) * (1 << 5 | 1),
            Values::Frame { negative } => draw_frame(urn, negative),
        };
        value << self.shift
    }
}

/// An SPR number as it stands in a word, its halves in reverse order.
fn swapped(number: u32) -> u32 {
    (number & 31) << 5 | number >> 5
}

fn draw_offset(urn: &mut Urn, unit: u32) -> u32 {
    match urn.below(8) {
        0..=2 => urn.below(256).wrapping_sub(128) / unit * unit,
        3..=4 => urn.below(32).wrapping_sub(16),
        5 => urn.pick(&[0, 1, 0x7FFF, 0x8000, 0xFFFF]),
        _ => urn.word(),
    }
}

/// The most doublewords of a frame that is positive; a negative one may have one more.
const MOST_FRAME: u32 = 4095;

fn draw_frame(urn: &mut Urn, negative: bool) -> u32 {
    let most = MOST_FRAME + negative as u32;
    let doublewords = match urn.below(8) {
        0..=4 => 1 + urn.below(5),
        5 => 1 + urn.below(16),
        6 => urn.pick(&[most, most - 1, most / 2, 256, 255]),
        _ => 1 + urn.below(most),
    };
    if negative {
        doublewords.wrapping_neg() & 0x1FFF
    } else {
        doublewords
    }
}

impl Form {
    /// The word that the form makes of a word's fields.
    pub fn write(&self, word: u32) -> u32 {
        self.fields.iter().fold(self.fixed, |made, field| made | word & field.bits())
    }

    /// How many words the form has.
    pub fn count(&self) -> u64 {
        let words: u64 = self.fields.iter().map(Field::count).product();
        match self.apart {
            0 => words,
            // Each of the fifteen bases rules out one target of sixteen.
            1 => words / 16 * 15,
            // Twelve pairs rule out two bases of fifteen; the two that r0 is in, one.
            _ => words / (14 * 15) * (12 * 13 + 2 * 14),
        }
    }

    /// A word of the form.
    pub fn draw(&self, urn: &mut Urn) -> u32 {
        loop {
            let word = self.fields.iter().fold(self.fixed, |word, field| word | field.draw(urn));
            let (rt, ra) = (word >> 21 & 31, word >> 16 & 31);
            if ra.wrapping_sub(rt) % 32 >= self.apart {
                return word;
            }
        }
    }
}

const fn any(shift: u32, width: u32) -> Field {
    Field { values: Values::Any { width }, shift }
}

const fn offset(shift: u32, width: u32, unit: u32) -> Field {
    Field { values: Values::Offset { width, unit }, shift }
}

const fn listed(shift: u32, values: &'static [u32]) -> Field {
    Field { values: Values::Listed(values), shift }
}

const fn sprs(numbers: &'static [u32]) -> Field {
    Field { values: Values::Sprs(numbers), shift: 11 }
}

const fn nonzero() -> &'static [u32] {
    REGISTERS.split_at(1).1
}

const fn writable() -> &'static [u32] {
    SPRS.split_at(WRITABLE).0
}

const RT: Field = listed(21, &REGISTERS);
/// The first register of a pair.
const DT: Field = listed(21, &PAIRS);
const RA: Field = listed(16, &REGISTERS);
const RB: Field = listed(11, &REGISTERS);
/// RA of an update form.
const BASE: Field = listed(16, nonzero());
const OE: Field = any(10, 1);
const RC: Field = any(0, 1);
const IMMEDIATE: Field = offset(0, 16, 4);
/// D of a doubleword, which is served at multiples of eight alone.
const D_8: Field = offset(0, 16, 8);
const SH: Field = any(11, 5);
const MB: Field = any(6, 5);
const ME: Field = any(1, 5);
const BO: Field = any(21, 5);
const BO_0_1: Field = any(24, 2);
const BO_3_4: Field = any(21, 2);
const BI: Field = any(16, 2);
const BH: Field = any(11, 2);
const BD: Field = offset(2, 14, 4);
const LI: Field = offset(2, 24, 4);
const AA: Field = any(1, 1);
const LK: Field = any(0, 1);
const TO: Field = listed(21, &[0, 31]);
const TG: Field = any(0, 1);
const FLUSH_HINT: Field = any(21, 2);
const TOUCH_HINT: Field = any(21, 5);
const ANY_TO: Field = any(21, 5);
const E: Field = any(15, 1);
const READ_SPR: Field = sprs(&SPRS);
const WRITE_SPR: Field = sprs(writable());

/// The first register of DA.
const DA: Field = listed(16, &PAIRS);
/// RT or RS, and RA, which is the same.
const STACK: Field = Field { values: Values::Twice(nonzero()), shift: 16 };
/// DD of lsku and of stsku.
const POPPED: Field = Field { values: Values::Frame { negative: false }, shift: 3 };
const PUSHED: Field = Field { values: Values::Frame { negative: true }, shift: 3 };
/// SH of the doubleword rotates in its two parts, and MB or ME.
const SH_LOW: Field = any(11, 5);
const SH_HIGH: Field = any(1, 1);
const LONG_MASK: Field = any(5, 6);
/// What a tw with TG may hold where others have registers.
const ANY_RA: Field = any(16, 5);
const ANY_RB: Field = any(11, 5);

const SUM: &[Field] = &[RT, RA, RB, OE, RC];
const UNARY_SUM: &[Field] = &[RT, RA, OE, RC];
const LOGIC: &[Field] = &[RT, RA, RB, RC];
const UNARY: &[Field] = &[RT, RA, RC];
const DISPLACED: &[Field] = &[RT, RA, IMMEDIATE];
const UPDATING: &[Field] = &[RT, BASE, IMMEDIATE];
const DISPLACED_PAIR: &[Field] = &[DT, RA, D_8];
const UPDATING_PAIR: &[Field] = &[DT, BASE, D_8];
const INDEXED: &[Field] = &[RT, RA, RB];
const ROTATED_PAIR: &[Field] = &[DT, DA, SH_LOW, LONG_MASK, SH_HIGH, RC];

const fn form(mnemonic: &'static str, fixed: u32, fields: &'static [Field]) -> Form {
    Form { mnemonic, fixed, fields, apart: 0 }
}

const fn updating_load(mnemonic: &'static str, opcode: u32) -> Form {
    Form { mnemonic, fixed: primary(opcode), fields: UPDATING, apart: 1 }
}

const fn updating_pair_load(mnemonic: &'static str, opcode: u32) -> Form {
    Form { mnemonic, fixed: primary(opcode), fields: UPDATING_PAIR, apart: 2 }
}

const fn primary(opcode: u32) -> u32 {
    opcode << 26
}

const fn extended(opcode: u32, extended: u32) -> u32 {
    opcode << 26 | extended << 1
}

/// The 42X's: those of the 42, but for tw, and what it has besides.
pub static FORMS_42X: LazyLock<Vec<&'static Form>> =
    LazyLock::new(|| FORMS.iter().filter(|form| form.mnemonic != "tw").chain(&OF_42X).collect());

/// The forms that the 42X alone has. Its tw is two: without TG it is the 42's, with it any word.
const OF_42X: [Form; 9] = [
    form("lsku", primary(58) | 3, &[STACK, POPPED]),
    form("mulli", primary(7), DISPLACED),
    form("mullw", extended(31, 235), SUM),
    form("rldicl", primary(30), ROTATED_PAIR),
    form("rldicr", primary(30) | 1 << 2, ROTATED_PAIR),
    form("rldimi", primary(30) | 3 << 2, ROTATED_PAIR),
    form("stsku", primary(62) | 3, &[STACK, PUSHED]),
    form("tw", extended(31, 4), &[TO, RA, RB]),
    form("tw", extended(31, 4) | 1, &[ANY_TO, ANY_RA, ANY_RB]),
];

/// The 42's 87 instructions, in the order of the manual's 9.4.
pub const FORMS: [Form; 87] = [
    form("add", extended(31, 266), SUM),
    form("addc", extended(31, 10), SUM),
    form("adde", extended(31, 138), SUM),
    form("addi", primary(14), DISPLACED),
    form("addic", primary(12), DISPLACED),
    form("addic.", primary(13), DISPLACED),
    form("addis", primary(15), DISPLACED),
    form("addme", extended(31, 234), UNARY_SUM),
    form("addze", extended(31, 202), UNARY_SUM),
    form("and", extended(31, 28), LOGIC),
    form("andc", extended(31, 60), LOGIC),
    form("andi.", primary(28), DISPLACED),
    form("andis.", primary(29), DISPLACED),
    form("b", primary(18), &[LI, AA, LK]),
    form("bc", primary(16), &[BO, BI, BD, AA, LK]),
    form("bcctr", extended(19, 528) | 1 << 23, &[BO_0_1, BO_3_4, BI, BH, LK]),
    form("bclr", extended(19, 16), &[BO, BI, BH, LK]),
    form("cmplw", extended(31, 32), &[RA, RB]),
    form("cmplwi", primary(10), &[RA, IMMEDIATE]),
    form("cmpw", extended(31, 0), &[RA, RB]),
    form("cmpwi", primary(11), &[RA, IMMEDIATE]),
    form("cntlzw", extended(31, 26), UNARY),
    form("dcbf", extended(31, 86), &[FLUSH_HINT, RA, RB]),
    form("dcbi", extended(31, 470), &[RA, RB]),
    form("dcbt", extended(31, 278), &[TOUCH_HINT, RA, RB]),
    form("dcbz", extended(31, 1014), &[RA, RB]),
    form("eqv", extended(31, 284), LOGIC),
    form("extsb", extended(31, 954), UNARY),
    form("extsh", extended(31, 922), UNARY),
    form("lbz", primary(34), DISPLACED),
    updating_load("lbzu", 35),
    form("lbzx", extended(31, 87), INDEXED),
    form("lhz", primary(40), DISPLACED),
    updating_load("lhzu", 41),
    form("lhzx", extended(31, 279), INDEXED),
    form("lvd", primary(5), DISPLACED_PAIR),
    updating_pair_load("lvdu", 9),
    form("lwz", primary(32), DISPLACED),
    updating_load("lwzu", 33),
    form("lwzx", extended(31, 23), INDEXED),
    form("mfcr", extended(31, 19), &[RT]),
    form("mfmsr", extended(31, 83), &[RT]),
    form("mfspr", extended(31, 339), &[RT, READ_SPR]),
    form("mtcr0", extended(31, 144) | 0x80 << 12, &[RT]),
    form("mtmsr", extended(31, 146), &[RT]),
    form("mtspr", extended(31, 467), &[RT, WRITE_SPR]),
    form("mullhw", extended(4, 424), LOGIC),
    form("mullhwu", extended(4, 392), LOGIC),
    form("nand", extended(31, 476), LOGIC),
    form("neg", extended(31, 104), UNARY_SUM),
    form("nor", extended(31, 124), LOGIC),
    form("or", extended(31, 444), LOGIC),
    form("orc", extended(31, 412), LOGIC),
    form("ori", primary(24), DISPLACED),
    form("oris", primary(25), DISPLACED),
    form("rfi", extended(19, 50), &[]),
    form("rlwimi", primary(20), &[RT, RA, SH, MB, ME, RC]),
    form("rlwinm", primary(21), &[RT, RA, SH, MB, ME, RC]),
    form("rlwnm", primary(23), &[RT, RA, RB, MB, ME, RC]),
    form("slw", extended(31, 24), LOGIC),
    form("sraw", extended(31, 792), LOGIC),
    form("srawi", extended(31, 824), &[RT, RA, SH, RC]),
    form("srw", extended(31, 536), LOGIC),
    form("stb", primary(38), DISPLACED),
    form("stbu", primary(39), UPDATING),
    form("stbx", extended(31, 215), INDEXED),
    form("sth", primary(44), DISPLACED),
    form("sthu", primary(45), UPDATING),
    form("sthx", extended(31, 407), INDEXED),
    form("stvd", primary(6), DISPLACED_PAIR),
    form("stvdu", primary(22), UPDATING_PAIR),
    form("stw", primary(36), DISPLACED),
    form("stwu", primary(37), UPDATING),
    form("stwx", extended(31, 151), INDEXED),
    form("subf", extended(31, 40), SUM),
    form("subfc", extended(31, 8), SUM),
    form("subfe", extended(31, 136), SUM),
    form("subfic", primary(8), DISPLACED),
    form("subfme", extended(31, 232), UNARY_SUM),
    form("subfze", extended(31, 200), UNARY_SUM),
    form("sync", extended(31, 598), &[]),
    form("tw", extended(31, 4), &[TO, RA, RB, TG]),
    form("wrtee", extended(31, 131), &[RT]),
    form("wrteei", extended(31, 163), &[E]),
    form("xor", extended(31, 316), LOGIC),
    form("xori", primary(26), DISPLACED),
    form("xoris", primary(27), DISPLACED),
];
