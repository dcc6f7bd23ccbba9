//! A case: a word, and the registers before it. Data lies in the first half of memory, code in the second.

use crate::profile;
use draw::{Form, Urn, FORMS, REGISTERS};
use linked::{Step, LINKED, LINKED_42X};
use std::fmt;

pub const MEMORY: usize = 8192;
const DATA: u32 = 4096;
/// Two instructions of the emulator's own stand at the start of the code.
const FIRST: u32 = DATA + 8;

/// MSR[UIE, ME], so that a fault of the core shows as one.
const MSR: u32 = 0x0001_1000;
/// The place of each compared register in a state record.
const CR: usize = 16;
const CTR: usize = 17;
const LR: usize = 24;
const MSR_AT: usize = 25;
const XER: usize = 33;
const IAR: usize = 34;
const WORDS: usize = 36;

/// Left out: what is the PPE 42's own or looks at a state that the 405 does not share; and what a 42X alone has, which is drawn
/// apart.
const LEFT_OUT: [&str; 18] = [
    "mfmsr", "mtmsr", // the two MSRs share few fields
    "rfi",   // it restores such an MSR
    "wrtee", "wrteei", // MSR[EE] is seen through mfmsr alone
    "tw",     // trap enters the 405's own vector; other TO are illegal here
    "dcbi",   // privileged; it changes no byte here
    "lvd", "lvdu", "stvd", "stvdu", // the 405 has no virtual doublewords
    "mulli", "mullw", "rldicl", "rldicr", "rldimi", "lsku", "stsku", // of the 42X
];

/// SPRs that both cores have with the same meaning: XER, LR, CTR.
const SHARED_SPRS: [u32; 3] = [1, 8, 9];

/// The registers that are compared, on either side of a case.
#[derive(Clone, Debug, PartialEq, Eq)]
pub struct Side {
    pub gpr: [u32; 16],
    pub cr: u32,
    pub xer: u32,
    pub lr: u32,
    pub ctr: u32,
    pub iar: u32,
    /// Something other than the end of one instruction.
    pub trouble: Option<String>,
}

pub struct Case {
    pub mnemonic: &'static str,
    pub word: u32,
    pub before: Side,
    /// The core of the library that plays it.
    step: Step,
    /// It accesses a halfword or word that is not aligned.
    pub unaligned: bool,
}

impl Case {
    pub fn draw(urn: &mut Urn) -> Case {
        let form = loop {
            let form = &FORMS[urn.below(FORMS.len() as u32) as usize];
            if !LEFT_OUT.contains(&form.mnemonic) {
                break form;
            }
        };
        let mut case = Case::of(form.mnemonic, draw_word(form, urn), Side::draw(urn), LINKED.step);
        if let Some(size) = case.access() {
            case.unaligned = !case.aim(urn, size).is_multiple_of(size);
        }
        case
    }

    /// A multiplication of the 42X, which the 405 has too.
    pub fn draw_multiplication(urn: &mut Urn) -> Case {
        let (mnemonic, word) = profile::draw_multiplication(urn);
        Case::of(mnemonic, word, Side::draw(urn), LINKED_42X.step)
    }

    /// A rotation of two pairs, on the 42X.
    pub fn draw_rotation(urn: &mut Urn) -> Case {
        let (mnemonic, word) = profile::draw_rotation(urn);
        Case::of(mnemonic, word, Side::draw(urn), LINKED_42X.step)
    }

    fn of(mnemonic: &'static str, word: u32, before: Side, step: Step) -> Case {
        Case { mnemonic, word, before, step, unaligned: false }
    }

    /// The same word with other registers.
    pub fn with_registers(&self, before: Side) -> Case {
        Case::of(self.mnemonic, self.word, before, self.step)
    }

    /// How many bytes the instruction works on at its address; caches work on any.
    fn access(&self) -> Option<u32> {
        let name = self.mnemonic;
        match name {
            "dcbf" | "dcbt" | "dcbz" => Some(1),
            _ if name.starts_with("lb") || name.starts_with("stb") => Some(1),
            _ if name.starts_with("lh") || name.starts_with("sth") => Some(2),
            _ if name.starts_with("lw") || name.starts_with("stw") => Some(4),
            _ => None,
        }
    }

    /// Sets registers so that the bytes are among the data, in one aligned group of eight, and gives their address: what
    /// crosses a group or is outside is the board's own.
    fn aim(&mut self, urn: &mut Urn, size: u32) -> u32 {
        let mut address = urn.below(DATA / 8) * 8 + urn.below(8 - size + 1);
        let (ra, rb) = (self.word >> 16 & 31, self.word >> 11 & 31);
        if self.word >> 26 == 31 {
            match (ra, rb) {
                (0, _) => self.set(rb, address),
                _ if ra == rb => {
                    // Twice the register is even.
                    address &= !1;
                    self.set(ra, (address / 2) | urn.some_of(0x8000_0000));
                }
                _ => {
                    let index = address.wrapping_sub(self.get(ra));
                    self.set(rb, index);
                }
            }
        } else if ra == 0 {
            self.word = self.word & !0xFFFF | address;
        } else {
            self.set(ra, address.wrapping_sub(self.word as u16 as i16 as u32));
        }
        address
    }

    fn set(&mut self, register: u32, value: u32) {
        self.before.gpr[place(register)] = value;
    }

    fn get(&self, register: u32) -> u32 {
        self.before.gpr[place(register)]
    }

    /// Writes the word where the case starts, and gives what stood there.
    pub fn place(&self, memory: &mut [u8; MEMORY]) -> [u8; 4] {
        let stood = memory[self.before.iar as usize..][..4].try_into().expect("four bytes");
        self.put_back(memory, self.word.to_be_bytes());
        stood
    }

    pub fn put_back(&self, memory: &mut [u8; MEMORY], bytes: [u8; 4]) {
        memory[self.before.iar as usize..][..4].copy_from_slice(&bytes);
    }

    /// The registers after one step of the library.
    pub fn run_library(&self, memory: &mut [u8; MEMORY]) -> Side {
        let mut state = self.before.to_state();
        let answer = (self.step)(&mut state, memory, 0);
        let mut after = Side::from_state(&state);
        after.trouble = (answer != 1).then(|| format!("answer {answer:#x}"));
        after
    }
}

fn draw_word(form: &Form, urn: &mut Urn) -> u32 {
    let word = form.draw(urn);
    match form.mnemonic {
        "mfspr" | "mtspr" => word & !(0x3FF << 11) | urn.pick(&SHARED_SPRS) << 16,
        // The emulator knows dcbf's hint bit 10 alone, and takes bit 9 for a reserved one.
        "dcbf" => word & !(1 << 22),
        _ => word,
    }
}

fn place(register: u32) -> usize {
    REGISTERS.iter().position(|number| *number == register).expect("a defined register")
}

impl Side {
    /// The two words of the pair that a register begins, the first one the high-order one.
    pub fn pair(&self, first: u32) -> u64 {
        u64::from(self.gpr[place(first)]) << 32 | u64::from(self.gpr[place((first + 1) % 32)])
    }

    pub fn set_pair(&mut self, first: u32, value: u64) {
        self.gpr[place(first)] = (value >> 32) as u32;
        self.gpr[place((first + 1) % 32)] = value as u32;
    }

    pub fn draw(urn: &mut Urn) -> Side {
        Side {
            gpr: std::array::from_fn(|_| urn.value()),
            cr: urn.some_of(0xF000_0000),
            xer: urn.some_of(0xE000_0000),
            lr: urn.value(),
            ctr: urn.value(),
            iar: FIRST + 4 * urn.below((MEMORY as u32 - FIRST) / 4),
            trouble: None,
        }
    }

    fn to_state(&self) -> Vec<u8> {
        let mut words = [0; WORDS];
        words[..16].copy_from_slice(&self.gpr);
        (words[CR], words[CTR], words[LR]) = (self.cr, self.ctr, self.lr);
        (words[MSR_AT], words[XER], words[IAR]) = (MSR, self.xer, self.iar);
        words.iter().flat_map(|word: &u32| word.to_be_bytes()).collect()
    }

    fn from_state(state: &[u8]) -> Side {
        let word = |i: usize| u32::from_be_bytes([state[4 * i], state[4 * i + 1], state[4 * i + 2], state[4 * i + 3]]);
        Side {
            gpr: std::array::from_fn(word),
            cr: word(CR),
            xer: word(XER),
            lr: word(LR),
            ctr: word(CTR),
            iar: word(IAR),
            trouble: None,
        }
    }
}

impl fmt::Display for Side {
    fn fmt(&self, f: &mut fmt::Formatter) -> fmt::Result {
        for (number, value) in REGISTERS.iter().zip(self.gpr) {
            write!(f, "r{number} {value:08X} ")?;
        }
        write!(f, "CR {:08X} XER {:08X} LR {:08X} ", self.cr, self.xer, self.lr)?;
        write!(f, "CTR {:08X} IAR {:08X}", self.ctr, self.iar)?;
        match &self.trouble {
            Some(trouble) => write!(f, " ({trouble})"),
            None => Ok(()),
        }
    }
}
