//! The Unicorn library's PowerPC 405, through the few of its C functions that are needed here.

use draw::REGISTERS;
use std::ffi::{c_int, c_void};
use std::ptr;

/// From unicorn/unicorn.h and unicorn/ppc.h.
const UC_ARCH_PPC: c_int = 5;
const UC_MODE_PPC32_BIG_ENDIAN: c_int = 1 << 2 | 1 << 30;
const UC_CPU_PPC32_405D4: c_int = 15;
const UC_PROT_ALL: u32 = 7;
const UC_CTL_WRITE: u32 = 1 << 30;
const UC_CTL_CPU_MODEL: u32 = UC_CTL_WRITE | 1 << 26 | 7;
const UC_CTL_TB_REMOVE_CACHE: u32 = UC_CTL_WRITE | 2 << 26 | 9;
pub const UC_ERR_FETCH_UNMAPPED: c_int = 8;
pub const UC_PPC_REG_PC: c_int = 1;
pub const UC_PPC_REG_0: c_int = 2;
pub const UC_PPC_REG_LR: c_int = 74;
pub const UC_PPC_REG_CTR: c_int = 76;
pub const UC_PPC_REG_CR: c_int = 79;

#[link(name = "unicorn")]
extern "C" {
    fn uc_open(arch: c_int, mode: c_int, engine: *mut *mut c_void) -> c_int;
    fn uc_close(engine: *mut c_void) -> c_int;
    fn uc_ctl(engine: *mut c_void, control: u32, ...) -> c_int;
    fn uc_mem_map_ptr(engine: *mut c_void, address: u64, size: usize, permissions: u32, memory: *mut c_void) -> c_int;
    fn uc_reg_write(engine: *mut c_void, register: c_int, value: *const c_void) -> c_int;
    fn uc_reg_read(engine: *mut c_void, register: c_int, value: *mut c_void) -> c_int;
    fn uc_emu_start(engine: *mut c_void, begin: u64, until: u64, timeout: u64, count: usize) -> c_int;
}

pub struct Engine {
    handle: *mut c_void,
    /// Mapped at address 0; on the heap, so that it stays where the engine was told.
    memory: Box<[u8]>,
}

impl Engine {
    /// The memory must be whole pages of 4096 bytes.
    pub fn new(mut memory: Box<[u8]>) -> Engine {
        let mut handle = ptr::null_mut();
        // SAFETY: the engine is used only if it was opened, and the memory lives as long as the engine.
        unsafe {
            done(uc_open(UC_ARCH_PPC, UC_MODE_PPC32_BIG_ENDIAN, &mut handle));
            done(uc_ctl(handle, UC_CTL_CPU_MODEL, UC_CPU_PPC32_405D4));
            done(uc_mem_map_ptr(handle, 0, memory.len(), UC_PROT_ALL, memory.as_mut_ptr().cast()));
        }
        Engine { handle, memory }
    }

    pub fn memory(&mut self) -> &mut [u8] {
        &mut self.memory
    }

    /// Runs so many instructions from the address on; 0, or Unicorn's error.
    pub fn run(&mut self, at: u64, count: usize) -> c_int {
        // SAFETY: the engine is open.
        unsafe { uc_emu_start(self.handle, at, u64::MAX, 0, count) }
    }

    /// Forgets its translation of the instruction at the address, which another has replaced.
    pub fn forget(&mut self, at: u64) {
        // SAFETY: the engine is open; the two addresses are of type uint64_t, as this control asks.
        unsafe { done(uc_ctl(self.handle, UC_CTL_TB_REMOVE_CACHE, at, at + 4)) };
    }

    /// The GPRs that the PPE 42 has.
    pub fn gprs(&self) -> [u32; 16] {
        REGISTERS.map(|number| self.read(UC_PPC_REG_0 + number as c_int))
    }

    pub fn set_gprs(&mut self, values: [u32; 16]) {
        for (number, value) in REGISTERS.iter().zip(values) {
            self.write(UC_PPC_REG_0 + *number as c_int, value);
        }
    }

    /// The register must be a 32-bit one, here and below.
    pub fn write(&mut self, register: c_int, value: u32) {
        // SAFETY: the engine is open and reads 32 bits.
        unsafe { done(uc_reg_write(self.handle, register, (&raw const value).cast())) }
    }

    pub fn read(&self, register: c_int) -> u32 {
        let mut value = 0u32;
        // SAFETY: the engine is open and writes 32 bits.
        unsafe { done(uc_reg_read(self.handle, register, (&raw mut value).cast())) };
        value
    }
}

impl Drop for Engine {
    fn drop(&mut self) {
        // SAFETY: the engine is open, and is not used again.
        unsafe { uc_close(self.handle) };
    }
}

/// Ends the program at an error of Unicorn's.
pub fn done(error: c_int) {
    assert_eq!(error, 0, "Unicorn's error");
}
