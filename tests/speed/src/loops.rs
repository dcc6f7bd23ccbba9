//! The loops that are timed, and where their runs start.

use std::borrow::Cow;

#[derive(Clone)]
pub struct Loop {
    pub name: &'static str,
    /// From address 0 on; ends in a branch back to 0.
    code: Cow<'static, [u32]>,
    registers: &'static [(usize, u32)],
    tcr: u32,
    /// Whether Unicorn's 405 has these instructions.
    pub on_405: bool,
}

/// TCR[DIE]: the decrementer's interrupt enabled.
const DIE: u32 = 0x0400_0000;

pub const ARITHMETIC: Loop = Loop {
    name: "arithmetic",
    // add r3,r3,r4; addi r4,r4,1; subfc r5,r3,r4; adde r6,r5,r3; rlwinm r7,r6,5,3,28; srawi. r8,r7,3; xor r9,r8,r3; cntlzw r10,r9; mullhw r3,r9,r10; b 0
    code: Cow::Borrowed(&[
        0x7C632214, 0x38840001, 0x7CA32010, 0x7CC51914, 0x54C728F8, 0x7CE81E71, 0x7D091A78, 0x7D2A0034, 0x10695350,
        0x4BFFFFDC,
    ]),
    registers: &[(3, 0x1234_5678), (4, 0x8765_4321)],
    tcr: 0,
    on_405: true,
};

pub const MEMORY: Loop = Loop {
    name: "memory",
    // lwz r3,256(r0); addi r3,r3,1; stw r3,256(r0); lhz r4,258(r0); sth r4,260(r0); lbz r5,259(r0); stbx r5,r6,r7; lwzx r8,r6,r7; b 0
    code: Cow::Borrowed(&[
        0x80600100, 0x38630001, 0x90600100, 0xA0800102, 0xB0800104, 0x88A00103, 0x7CA639AE, 0x7D06382E, 0x4BFFFFE0,
    ]),
    registers: &[(6, 0x200), (7, 0x40)],
    tcr: 0,
    on_405: true,
};

pub const BRANCHES: Loop = Loop {
    name: "branches",
    // cmpwi r3,0; bne 8; nop; addi r3,r3,1; cmplwi r3,9; bgt 8; b 8; b 4; bdnz 4; bl 4; b 0
    code: Cow::Borrowed(&[
        0x2C030000, 0x40820008, 0x60000000, 0x38630001, 0x28030009, 0x41810008, 0x48000008, 0x48000004, 0x42000004,
        0x48000005, 0x4BFFFFD8,
    ]),
    registers: &[],
    tcr: 0,
    on_405: true,
};

pub const LEDGER: Loop = Loop {
    name: "ledger",
    // lhz r3,256(r0); addi r3,r3,1; sth r3,256(r0); extsh r4,r3; lwz r5,260(r0); cmpw r4,r5; bge 8; stw r4,260(r0); rlwinm r6,r3,2,24,29; addi r6,r6,512; stw r4,0(r6); b 0
    code: Cow::Borrowed(&[
        0xA0600100, 0x38630001, 0xB0600100, 0x7C640734, 0x80A00104, 0x7C042800, 0x40800008, 0x90800104, 0x5466163A,
        0x38C60200, 0x90860000, 0x4BFFFFD4,
    ]),
    registers: &[],
    tcr: 0,
    on_405: true,
};

pub const DOUBLEWORD: Loop = Loop {
    name: "doubleword",
    // stvd r3,256(0); stvd r31,264(0); addi r3,r3,1; lvd r5,256(0); lvd r31,264(0); b 0
    code: Cow::Borrowed(&[0x18600100, 0x1BE00108, 0x38630001, 0x14A00100, 0x17E00108, 0x4BFFFFEC]),
    registers: &[],
    tcr: 0,
    on_405: false,
};

/// Masks in order and masks that go round, in turns.
pub const ROTATES: Loop = Loop {
    name: "rotates",
    // rlwinm r3,r3,1,0,31; rlwinm r4,r3,5,28,3; rlwinm r5,r4,2,24,29; rlwinm r6,r5,31,20,10; rlwinm r7,r6,16,16,31; rlwinm r8,r7,24,8,2; rlwinm r9,r8,3,0,28; rlwinm r10,r9,8,24,7; b 0
    code: Cow::Borrowed(&[
        0x5463083E, 0x54642F06, 0x5485163A, 0x54A6FD14, 0x54C7843E, 0x54E8C204, 0x55091838, 0x552A460E, 0x4BFFFFE0,
    ]),
    registers: &[(3, 0x1234_5678)],
    tcr: 0,
    on_405: true,
};

/// The same in a core that has to look for an interrupt in every step; MSR[EE] masks it.
pub const ENABLED: Loop = Loop { name: "ledger,DIE", tcr: DIE, ..LEDGER };

/// Stores over its first word, which adds 1 and 2 in turns.
pub const REWRITING: Loop = Loop {
    name: "rewriting",
    // addi r3,r3,1; xori r4,r4,3; stw r4,0(0); then as arithmetic does, but with r5 to r10, twice; b 0
    code: Cow::Borrowed(&[
        0x38630001, 0x68840003, 0x90800000, 0x7CA53214, 0x38C60001, 0x7CE53010, 0x7D072914, 0x550928F8, 0x7D2A1E71,
        0x7D482A78, 0x7D0A0034, 0x10A85350, 0x7CA53214, 0x38C60001, 0x7CE53010, 0x7D072914, 0x550928F8, 0x7D2A1E71,
        0x7D482A78, 0x7D0A0034, 0x10A85350, 0x4BFFFFAC,
    ]),
    registers: &[(4, 0x38630001), (5, 0x1234_5678), (6, 0x8765_4321)],
    tcr: 0,
    on_405: true,
};

/// The arithmetic loop and then the ledger loop, without their branches back. Data are from 8,192 on.
const MIXED: [u32; 20] = [
    // add r3,r3,r4; addi r4,r4,1; subfc r5,r3,r4; adde r6,r5,r3; rlwinm r7,r6,5,3,28; srawi. r8,r7,3; xor r9,r8,r3; cntlzw r10,r9; mullhw r3,r9,r10
    0x7C632214, 0x38840001, 0x7CA32010, 0x7CC51914, 0x54C728F8, 0x7CE81E71, 0x7D091A78, 0x7D2A0034, 0x10695350,
    // lhz r3,8192(r0); addi r3,r3,1; sth r3,8192(r0); extsh r4,r3; lwz r5,8196(r0); cmpw r4,r5; bge 8; stw r4,8196(r0); rlwinm r6,r3,2,24,29; addi r6,r6,12288; stw r4,0(r6)
    0xA0602000, 0x38630001, 0xB0602000, 0x7C640734, 0x80A02004, 0x7C042800, 0x40800008, 0x90802004, 0x5466163A,
    0x38C63000, 0x90860000,
];

/// Mixed instructions over and over in so many words, the last a branch back.
pub fn long(name: &'static str, words: usize) -> Loop {
    let whole = (words - 1) / MIXED.len() * MIXED.len();
    let mut code: Vec<u32> = MIXED.into_iter().cycle().take(whole).collect();
    // addi r4,r4,1, and b 0
    code.resize(words - 1, 0x38840001);
    code.push(0x4800_0000 | (4 * (words as u32 - 1)).wrapping_neg() & 0x03FF_FFFC);
    Loop { name, code: Cow::Owned(code), registers: &[(4, 0x8765_4321)], tcr: 0, on_405: true }
}

/// What a run starts from, and what it changes that the players share; all else starts at 0.
#[derive(Clone, PartialEq)]
pub struct State {
    pub gprs: [u32; 16],
    pub tcr: u32,
    pub memory: Vec<u8>,
}

impl Loop {
    pub fn start(&self, size: usize) -> State {
        let mut start = State { gprs: [0; 16], tcr: self.tcr, memory: vec![0; size] };
        for (register, value) in self.registers {
            start.gprs[*register] = *value;
        }
        for (word, bytes) in self.code.iter().zip(start.memory.chunks_exact_mut(4)) {
            bytes.copy_from_slice(&word.to_be_bytes());
        }
        start
    }
}
