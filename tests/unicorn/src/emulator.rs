//! A case on the Unicorn library.

use crate::case::{Case, Side, MEMORY};
use std::ffi::c_int;
use unicorn::{done, Engine, UC_ERR_FETCH_UNMAPPED};
use unicorn::{UC_PPC_REG_0, UC_PPC_REG_CR, UC_PPC_REG_CTR, UC_PPC_REG_LR, UC_PPC_REG_PC};

/// XER has no usable register number, so it is carried through registers that the PPE 42 lacks.
const XER_IN: c_int = UC_PPC_REG_0 + 11;
const XER_OUT: c_int = UC_PPC_REG_0 + 12;
/// The 405 keeps more bits of XER, which mtspr can set; the PPE 42 has these alone.
const SO_OV_CA: u32 = 0xE000_0000;
const SET_XER: u32 = 0x7D61_03A6;
const GET_XER: u32 = 0x7D81_02A6;
/// Where these two instructions stand, ahead of the code of the cases.
const SET_XER_AT: u64 = 0x1000;
const GET_XER_AT: u64 = 0x1004;

/// Writes the emulator's own instructions, which the memory of both sides holds.
pub fn install(memory: &mut [u8; MEMORY]) {
    for (at, word) in [(SET_XER_AT, SET_XER), (GET_XER_AT, GET_XER)] {
        memory[at as usize..][..4].copy_from_slice(&word.to_be_bytes());
    }
}

pub struct Emulator(Engine);

impl Emulator {
    pub fn new() -> Emulator {
        Emulator(Engine::new(Box::new([0; MEMORY])))
    }

    pub fn memory(&mut self) -> &mut [u8] {
        self.0.memory()
    }

    /// The registers after the case's one instruction, which is in memory already.
    pub fn run(&mut self, case: &Case) -> Side {
        self.prepare(&case.before);
        let at = case.before.iar as u64;
        self.0.forget(at);
        let result = self.0.run(at, 1);
        let mut after = self.registers();
        // A branch may leave the mapped memory: the next fetch fails, at the address that is asked for.
        if result != 0 && !(result == UC_ERR_FETCH_UNMAPPED && after.iar as usize >= MEMORY) {
            after.trouble = Some(format!("Unicorn's error {result}"));
        }
        done(self.0.run(GET_XER_AT, 1));
        after.xer = self.0.read(XER_OUT) & SO_OV_CA;
        after
    }

    fn prepare(&mut self, before: &Side) {
        self.0.write(XER_IN, before.xer);
        done(self.0.run(SET_XER_AT, 1));
        self.0.set_gprs(before.gpr);
        self.0.write(UC_PPC_REG_CR, before.cr);
        self.0.write(UC_PPC_REG_LR, before.lr);
        self.0.write(UC_PPC_REG_CTR, before.ctr);
    }

    fn registers(&self) -> Side {
        Side {
            gpr: self.0.gprs(),
            cr: self.0.read(UC_PPC_REG_CR),
            xer: 0,
            lr: self.0.read(UC_PPC_REG_LR),
            ctr: self.0.read(UC_PPC_REG_CTR),
            iar: self.0.read(UC_PPC_REG_PC),
            trouble: None,
        }
    }
}
