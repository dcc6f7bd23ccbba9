//! The words that a 42X has besides and others know.

use draw::{Urn, REGISTERS};

/// Registers that begin a pair; 31 goes with 0.
const FIRSTS: [u32; 14] = [0, 1, 2, 3, 4, 5, 6, 7, 8, 9, 28, 29, 30, 31];

/// The forms of mullw, by OE and Rc.
const MULLW: [(&str, u32); 4] =
    [("mullw", 0x7C00_01D6), ("mullw.", 0x7C00_01D7), ("mullwo", 0x7C00_05D6), ("mullwo.", 0x7C00_05D7)];

const ROTATIONS: [(&str, u32); 6] = [
    ("rldicl", 0x7800_0000),
    ("rldicl.", 0x7800_0001),
    ("rldicr", 0x7800_0004),
    ("rldicr.", 0x7800_0005),
    ("rldimi", 0x7800_000C),
    ("rldimi.", 0x7800_000D),
];

/// Both operands are registers, or one is an immediate of its own.
pub fn draw_multiplication(urn: &mut Urn) -> (&'static str, u32) {
    let registers = urn.pick(&REGISTERS) << 21 | urn.pick(&REGISTERS) << 16;
    if urn.percent(30) {
        return ("mulli", 0x1C00_0000 | registers | urn.value() & 0xFFFF);
    }
    let (mnemonic, word) = urn.pick(&MULLW);
    (mnemonic, word | registers | urn.pick(&REGISTERS) << 11)
}

/// The shift amount is split: its low five bits, and its high one in bit 30; the mask's number has its high bit last.
pub fn draw_rotation(urn: &mut Urn) -> (&'static str, u32) {
    let (mnemonic, word) = urn.pick(&ROTATIONS);
    let (amount, mask) = (urn.below(64), urn.below(64));
    let registers = urn.pick(&FIRSTS) << 21 | urn.pick(&FIRSTS) << 16;
    let numbers = (amount & 31) << 11 | (amount >> 5) << 1 | (mask & 31) << 6 | (mask >> 5) << 5;
    (mnemonic, word | registers | numbers)
}
