//! What each instruction does (the manual, 9.4).

use crate::arithmetic::{
    comparison, long_mask, mask, multiply_signed, multiply_unsigned, product, shift_left, shift_right,
    shift_right_algebraic, sum, Sum,
};
use crate::interrupts::Fault;
use crate::memory;
use crate::profile::Profile;
use crate::registers::{bit, cr, dbcr, msr, xer, Core};
use crate::word::{low_of, Kind, Word};

/// Halt code of a trap with DBCR[TRAP] set.
const TRAPPED: u32 = 3;

/// Where a frame's header has LR.
const LINK: u32 = 4;

/// The thirteen bits of DD.
const DD: u32 = 0x1FFF;

/// The pairs that a frame with room for so many doublewords has, in the order of their accesses: each by its first
/// register, with how far it is below the frame above.
fn saved(room: u32) -> impl Iterator<Item = (usize, u32)> {
    [(30, 8), (28, 16)].into_iter().take(room as usize)
}

impl Core {
    /// Executes a legal word. A fault has changed nothing yet, but in lsku and stsku.
    pub(crate) fn execute(&mut self, profile: Profile, kind: Kind, word: Word, memory: &mut [u8]) -> Result<(), Fault> {
        use Kind::*;
        let next = self.iar.wrapping_add(4);
        let mut nia = next;
        let (s, a, b) = (self.gpr[word.rt()], self.gpr[word.ra()], self.gpr[word.rb()]);
        match kind {
            Add => self.plain_sum(word, sum(a, b, 0)),
            Addc => self.carrying_sum(word, sum(a, b, 0)),
            Adde => self.carrying_sum(word, sum(a, b, self.ca())),
            Addme => self.carrying_sum(word, sum(a, u32::MAX, self.ca())),
            Addze => self.carrying_sum(word, sum(a, 0, self.ca())),
            Subf => self.plain_sum(word, sum(!a, b, 1)),
            Subfc => self.carrying_sum(word, sum(!a, b, 1)),
            Subfe => self.carrying_sum(word, sum(!a, b, self.ca())),
            Subfme => self.carrying_sum(word, sum(!a, u32::MAX, self.ca())),
            Subfze => self.carrying_sum(word, sum(!a, 0, self.ca())),
            Neg => self.plain_sum(word, sum(!a, 0, 1)),
            Addi => self.gpr[word.rt()] = self.base(word).wrapping_add(word.si()),
            Addis => self.gpr[word.rt()] = self.base(word).wrapping_add(word.ui() << 16),
            Addic => self.immediate_sum(word, sum(a, word.si(), 0), false),
            AddicRecord => self.immediate_sum(word, sum(a, word.si(), 0), true),
            Subfic => self.immediate_sum(word, sum(!a, word.si(), 1), false),
            Mullhw => self.put(word.rt(), multiply_signed(a, b), word.rc()),
            Mullhwu => self.put(word.rt(), multiply_unsigned(a, b), word.rc()),
            Mulli => self.gpr[word.rt()] = product(a, word.si()).0,
            Mullw => self.product(word, a, b),

            And => self.put(word.ra(), s & b, word.rc()),
            Andc => self.put(word.ra(), s & !b, word.rc()),
            Eqv => self.put(word.ra(), !(s ^ b), word.rc()),
            Nand => self.put(word.ra(), !(s & b), word.rc()),
            Nor => self.put(word.ra(), !(s | b), word.rc()),
            Or => self.put(word.ra(), s | b, word.rc()),
            Orc => self.put(word.ra(), s | !b, word.rc()),
            Xor => self.put(word.ra(), s ^ b, word.rc()),
            Andi => self.put(word.ra(), s & word.ui(), true),
            Andis => self.put(word.ra(), s & word.ui() << 16, true),
            Ori => self.gpr[word.ra()] = s | word.ui(),
            Oris => self.gpr[word.ra()] = s | word.ui() << 16,
            Xori => self.gpr[word.ra()] = s ^ word.ui(),
            Xoris => self.gpr[word.ra()] = s ^ word.ui() << 16,
            Cntlzw => self.put(word.ra(), s.leading_zeros(), word.rc()),
            Extsb => self.put(word.ra(), s as i8 as u32, word.rc()),
            Extsh => self.put(word.ra(), s as i16 as u32, word.rc()),

            Cmpw => self.compare(comparison((a as i32).cmp(&(b as i32)))),
            Cmpwi => self.compare(comparison((a as i32).cmp(&(word.si() as i32)))),
            Cmplw => self.compare(comparison(a.cmp(&b))),
            Cmplwi => self.compare(comparison(a.cmp(&word.ui()))),

            Rlwimi => {
                let m = mask(word.mb(), word.me());
                self.put(word.ra(), s.rotate_left(word.sh()) & m | a & !m, word.rc());
            }
            Rlwinm => self.put(word.ra(), s.rotate_left(word.sh()) & mask(word.mb(), word.me()), word.rc()),
            Rlwnm => self.put(word.ra(), s.rotate_left(b & 31) & mask(word.mb(), word.me()), word.rc()),
            Rldicl => self.rotate_pair(word, long_mask(word.long_mask(), 63), 0),
            Rldicr => self.rotate_pair(word, long_mask(0, word.long_mask()), 0),
            Rldimi => self.rotate_pair(word, long_mask(word.long_mask(), 63 - word.long_sh()), u64::MAX),
            Slw => self.put(word.ra(), shift_left(s, b), word.rc()),
            Srw => self.put(word.ra(), shift_right(s, b), word.rc()),
            Sraw => self.algebraic_shift(word, b),
            Srawi => self.algebraic_shift(word, word.sh()),

            Lbz => self.gpr[word.rt()] = memory::load::<1>(memory, self.displaced(word))?,
            Lhz => self.gpr[word.rt()] = memory::load::<2>(memory, self.displaced(word))?,
            Lwz => self.gpr[word.rt()] = memory::load::<4>(memory, self.displaced(word))?,
            Lbzx => self.gpr[word.rt()] = memory::load::<1>(memory, self.indexed(word))?,
            Lhzx => self.gpr[word.rt()] = memory::load::<2>(memory, self.indexed(word))?,
            Lwzx => self.gpr[word.rt()] = memory::load::<4>(memory, self.indexed(word))?,
            Lbzu => self.load_with_update::<1>(word, memory)?,
            Lhzu => self.load_with_update::<2>(word, memory)?,
            Lwzu => self.load_with_update::<4>(word, memory)?,
            Lvd => self.set_pair(word.rt(), memory::load_doubleword(memory, self.displaced(word))?),
            Lvdu => self.load_pair_with_update(word, memory)?,
            Stb => memory::store::<1>(memory, self.displaced(word), s)?,
            Sth => memory::store::<2>(memory, self.displaced(word), s)?,
            Stw => memory::store::<4>(memory, self.displaced(word), s)?,
            Stbx => memory::store::<1>(memory, self.indexed(word), s)?,
            Sthx => memory::store::<2>(memory, self.indexed(word), s)?,
            Stwx => memory::store::<4>(memory, self.indexed(word), s)?,
            Stbu => self.store_with_update::<1>(word, memory)?,
            Sthu => self.store_with_update::<2>(word, memory)?,
            Stwu => self.store_with_update::<4>(word, memory)?,
            Stvd => memory::store_doubleword(memory, self.displaced(word), self.pair(word.rt()))?,
            Stvdu => self.store_pair_with_update(word, memory)?,
            Lsku => self.load_stack(word, memory)?,
            Stsku => self.store_stack(word, memory)?,
            Dcbz => memory::clear_block(memory, self.indexed(word))?,
            Dcbf | Dcbi | Dcbt | Sync => {}

            B => {
                nia = self.target(word, word.li());
                self.link(word, next);
            }
            Bc => {
                if self.goes(word) {
                    nia = self.target(word, word.bd());
                }
                self.link(word, next);
            }
            Bclr => {
                if self.goes(word) {
                    nia = self.lr & !3;
                }
                self.link(word, next);
            }
            Bcctr => {
                if self.goes(word) {
                    nia = self.ctr & !3;
                }
                self.link(word, next);
            }
            Rfi => {
                self.msr = self.srr1;
                nia = self.srr0;
            }
            Tw if word.to() == 0 || word.marks(profile) => {}
            Tw if self.dbcr & dbcr::TRAP != 0 => {
                self.halt = TRAPPED;
                nia = self.iar;
            }
            Tw => return Err(Fault::Program { word: word.0, trap: true }),

            Mfcr => self.gpr[word.rt()] = self.cr,
            Mtcr0 => self.cr = s & cr::DEFINED,
            Mfspr => self.gpr[word.rt()] = self.read_spr(word.spr()),
            Mtspr => self.write_spr(profile, word.spr(), s),
            Mfmsr => self.gpr[word.rt()] = self.msr,
            Mtmsr => self.msr = s & msr::DEFINED,
            Wrtee => self.msr = self.msr & !msr::EE | s & msr::EE,
            Wrteei => self.msr = self.msr & !msr::EE | if word.e() { msr::EE } else { 0 },
        }
        self.iar = nia;
        Ok(())
    }

    fn ca(&self) -> u32 {
        (self.xer & xer::CA != 0) as u32
    }

    fn set_ca(&mut self, carry: bool) {
        self.xer = self.xer & !xer::CA | if carry { xer::CA } else { 0 };
    }

    fn plain_sum(&mut self, word: Word, sum: Sum) {
        self.note_overflow(word, sum.overflow);
        self.put(word.rt(), sum.value, word.rc());
    }

    fn product(&mut self, word: Word, a: u32, b: u32) {
        let (value, overflow) = product(a, b);
        self.note_overflow(word, overflow);
        self.put(word.rt(), value, word.rc());
    }

    /// OE writes OV both ways, and SO only ever to 1.
    fn note_overflow(&mut self, word: Word, overflow: bool) {
        if word.oe() {
            self.xer = if overflow { self.xer | xer::SO | xer::OV } else { self.xer & !xer::OV };
        }
    }

    fn carrying_sum(&mut self, word: Word, sum: Sum) {
        self.set_ca(sum.carry);
        self.plain_sum(word, sum);
    }

    fn immediate_sum(&mut self, word: Word, sum: Sum, record: bool) {
        self.set_ca(sum.carry);
        self.put(word.rt(), sum.value, record);
    }

    fn algebraic_shift(&mut self, word: Word, amount: u32) {
        let (value, carry) = shift_right_algebraic(self.gpr[word.rt()], amount);
        self.set_ca(carry);
        self.put(word.ra(), value, word.rc());
    }

    fn put(&mut self, register: usize, value: u32, record: bool) {
        self.gpr[register] = value;
        if record {
            self.compare(comparison((value as i32).cmp(&0)));
        }
    }

    /// CR0 with XER[SO] as it is by now.
    fn compare(&mut self, comparison: u32) {
        self.cr = comparison | if self.xer & xer::SO != 0 { cr::SO } else { 0 };
    }

    /// (RA|0).
    fn base(&self, word: Word) -> u32 {
        match word.ra() {
            0 => 0,
            ra => self.gpr[ra],
        }
    }

    pub(crate) fn displaced(&self, word: Word) -> u32 {
        self.base(word).wrapping_add(word.si())
    }

    pub(crate) fn indexed(&self, word: Word) -> u32 {
        self.base(word).wrapping_add(self.gpr[word.rb()])
    }

    fn load_with_update<const SIZE: u32>(&mut self, word: Word, memory: &[u8]) -> Result<(), Fault> {
        let address = self.displaced(word);
        self.gpr[word.rt()] = memory::load::<SIZE>(memory, address)?;
        self.gpr[word.ra()] = address;
        Ok(())
    }

    fn store_with_update<const SIZE: u32>(&mut self, word: Word, memory: &mut [u8]) -> Result<(), Fault> {
        let address = self.displaced(word);
        memory::store::<SIZE>(memory, address, self.gpr[word.rt()])?;
        self.gpr[word.ra()] = address;
        Ok(())
    }

    /// The doubleword of a pair, its high-order half in the first register (8.4).
    fn pair(&self, first: usize) -> u64 {
        (self.gpr[first] as u64) << 32 | self.gpr[low_of(first)] as u64
    }

    fn set_pair(&mut self, first: usize, value: u64) {
        self.gpr[first] = (value >> 32) as u32;
        self.gpr[low_of(first)] = value as u32;
    }

    /// (DA) becomes (DS) rotated where the mask has ones; where it has none, (DA) as far as `kept` has ones. The pairs
    /// may share a register: both are read first.
    fn rotate_pair(&mut self, word: Word, mask: u64, kept: u64) {
        let rotated = self.pair(word.rt()).rotate_left(word.long_sh());
        let value = rotated & mask | self.pair(word.ra()) & !mask & kept;
        self.set_pair(word.ra(), value);
        if word.rc() {
            self.compare(comparison((value as i64).cmp(&0)));
        }
    }

    fn load_pair_with_update(&mut self, word: Word, memory: &[u8]) -> Result<(), Fault> {
        let address = self.displaced(word);
        self.set_pair(word.rt(), memory::load_doubleword(memory, address)?);
        self.gpr[word.ra()] = address;
        Ok(())
    }

    fn store_pair_with_update(&mut self, word: Word, memory: &mut [u8]) -> Result<(), Fault> {
        let address = self.displaced(word);
        memory::store_doubleword(memory, address, self.pair(word.rt()))?;
        self.gpr[word.ra()] = address;
        Ok(())
    }

    /// lsku pops a frame (9.4.45): the pairs just below the frame above, as many as this one has room for, then LR.
    /// What was read before a fault stays; RA, which is also RT, is written last and never from its own pair.
    fn load_stack(&mut self, word: Word, memory: &[u8]) -> Result<(), Fault> {
        let stack = self.stack(word, false)?;
        let above = stack.wrapping_add(word.frame());
        for (first, below) in saved(word.dd() - 1) {
            let value = memory::load_doubleword(memory, above.wrapping_sub(below))?;
            self.set_pair(first, value);
            self.gpr[word.ra()] = stack;
        }
        self.lr = memory::load::<4>(memory, above.wrapping_add(LINK))?;
        self.gpr[word.ra()] = above;
        self.edr = above;
        Ok(())
    }

    /// stsku pushes one (9.4.89): LR into the header of the frame that was last, the pairs below that, and the old
    /// stack pointer where the new one points. What was stored before a fault stays.
    fn store_stack(&mut self, word: Word, memory: &mut [u8]) -> Result<(), Fault> {
        let stack = self.stack(word, true)?;
        let below = stack.wrapping_add(word.frame());
        memory::store::<4>(memory, stack.wrapping_add(LINK), self.lr)?;
        for (first, offset) in saved(!word.dd() & DD) {
            memory::store_doubleword(memory, stack.wrapping_sub(offset), self.pair(first))?;
        }
        memory::store::<4>(memory, below, stack)?;
        self.gpr[word.ra()] = below;
        self.edr = stack;
        Ok(())
    }

    /// (RA) as a stack pointer, which is a multiple of 8 whatever memory would serve.
    fn stack(&self, word: Word, store: bool) -> Result<u32, Fault> {
        let address = self.gpr[word.ra()];
        if address.is_multiple_of(8) {
            Ok(address)
        } else {
            Err(Fault::Alignment { address, store })
        }
    }

    fn target(&self, word: Word, offset: u32) -> u32 {
        if word.aa() {
            offset
        } else {
            self.iar.wrapping_add(offset)
        }
    }

    fn link(&mut self, word: Word, next: u32) {
        if word.lk() {
            self.lr = next;
        }
    }

    /// Whether BO and BI let a branch go, counting CTR down where BO asks for it.
    fn goes(&mut self, word: Word) -> bool {
        if !word.bo(2) {
            self.ctr = self.ctr.wrapping_sub(1);
        }
        let by_count = word.bo(2) || (self.ctr == 0) == word.bo(3);
        let by_condition = word.bo(0) || (self.cr & bit(word.bi()) != 0) == word.bo(1);
        by_count && by_condition
    }
}
