//! What the tests share: a zeroed core, words by their fields, and short runs.

#![allow(dead_code, unused_imports)]

use second::registers::{msr, WORDS};
use second::Core;
pub use second::Profile::{Ppe42, Ppe42x};

/// All zero but MSR[UIE, ME], so that nothing is promoted.
pub fn core() -> Core {
    let mut core = zeroed();
    core.msr = msr::UIE | msr::ME;
    core
}

pub fn zeroed() -> Core {
    Core::from_words(&[0; WORDS])
}

/// Memory of `length` bytes that starts with the words.
pub fn memory(words: &[u32], length: usize) -> Vec<u8> {
    let mut memory: Vec<u8> = words.iter().flat_map(|word| word.to_be_bytes()).collect();
    memory.resize(length, 0);
    memory
}

/// The core after the words, one step each, from address 0 in 512 bytes of memory.
pub fn after(mut core: Core, words: &[u32]) -> Core {
    let mut memory = memory(words, 512);
    assert_eq!(core.run(Ppe42, &mut memory, &[], words.len() as u32), words.len() as u32);
    core
}

/// opcode, RT or RS or BF, RA, immediate.
pub fn d_form(opcode: u32, rt: u32, ra: u32, immediate: u32) -> u32 {
    opcode << 26 | rt << 21 | ra << 16 | immediate & 0xFFFF
}

/// Primary opcode 31, with Rc.
pub fn x_form(rt: u32, ra: u32, rb: u32, extended: u32, rc: u32) -> u32 {
    31 << 26 | rt << 21 | ra << 16 | rb << 11 | extended << 1 | rc
}

/// Added to an extended opcode.
pub const OE: u32 = 512;

/// Primary opcodes of the virtual doublewords (Table 1.68).
pub const LVD: u32 = 5;
pub const LVDU: u32 = 9;
pub const STVD: u32 = 6;
pub const STVDU: u32 = 22;

pub fn mtspr(number: u32, rs: u32) -> u32 {
    x_form(rs, number & 31, number >> 5, 467, 0)
}

pub fn mfspr(rt: u32, number: u32) -> u32 {
    x_form(rt, number & 31, number >> 5, 339, 0)
}

pub const NOP: u32 = 0x6000_0000;
pub const BRANCH_TO_ITSELF: u32 = 0x4800_0000;
pub const RFI: u32 = 0x4C00_0064;
pub const TRAP: u32 = 0x7FE0_0008;
pub const ILLEGAL: u32 = 0;
