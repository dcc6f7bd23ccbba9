//! The manual's own tables, procedures and examples.

mod common;

use common::*;
use second::registers::{bit, cr, dbcr, isr, msr, tcr, tsr, xer, GPRS};
use second::{Asynchronous, Core, Fault, Kind, Outcome, Taken, Word};

fn step(core: &mut Core, words: &[u32], event: u8) -> Outcome {
    core.step(Ppe42, &mut memory(words, 512), event)
}

/// 2.11.3.2: the most negative number added to itself, and two large positive ones.
#[test]
fn recorded_overflows() {
    let addco_record = x_form(3, 4, 4, 10 + OE, 1);
    let mut start = core();
    start.gpr[4] = 0x8000_0000;
    let end = after(start.clone(), &[addco_record]);
    assert_eq!((end.gpr[3], end.cr, end.xer), (0, cr::EQ | cr::SO, xer::SO | xer::OV | xer::CA));
    start.gpr[4] = 0x7FFF_FFFF;
    let end = after(start, &[addco_record]);
    assert_eq!((end.cr, end.xer), (cr::LT | cr::SO, xer::SO | xer::OV));
}

/// 2.11.4: SO outlasts an instruction that clears OV, until a zero is written to it.
#[test]
fn summary_overflow_stays() {
    let mut start = core();
    start.xer = xer::SO | xer::OV;
    let end = after(start.clone(), &[x_form(3, 4, 5, 266 + OE, 1)]);
    assert_eq!((end.xer, end.cr), (xer::SO, cr::EQ | cr::SO));
    assert_eq!(after(start, &[mtspr(1, 4)]).xer, 0);
}

/// 2.7.1: an absolute branch with a negative displacement goes to the top of the addresses.
#[test]
fn absolute_branch_wraps() {
    assert_eq!(after(core(), &[0x4BFF_FFFE]).iar, 0xFFFF_FFFC);
}

/// 9.4.7: addis and ori make any value; 9.4.78 and 9.4.79: a shift and addze divide.
#[test]
fn programming_notes() {
    let made = after(core(), &[d_form(15, 3, 0, 0x89AB), d_form(24, 3, 3, 0xCDEF)]);
    assert_eq!(made.gpr[3], 0x89AB_CDEF);
    for (value, amount) in [(-7, 1), (7, 1), (-8, 2), (-9, 3), (i32::MIN, 31)] {
        let mut start = core();
        start.gpr[4] = value as u32;
        let end = after(start, &[x_form(4, 3, amount, 824, 0), x_form(3, 3, 0, 202, 0)]);
        let divisor = 1i64 << amount;
        assert_eq!(end.gpr[3] as i32 as i64, value as i64 / divisor, "{value} by {divisor}");
    }
}

/// Table 1.94, by its descriptions.
#[test]
fn rotate_mnemonics() {
    let value = 0x89AB_CDEF;
    let rlwinm = |sh: u32, mb: u32, me: u32| {
        let mut start = core();
        start.gpr[4] = value;
        after(start, &[21 << 26 | 4 << 21 | 3 << 16 | sh << 11 | mb << 6 | me << 1]).gpr[3]
    };
    for n in 1..32 {
        assert_eq!(rlwinm(0, n, 31), value & u32::MAX >> n, "clrlwi");
        assert_eq!(rlwinm(0, 0, 31 - n), value & u32::MAX << n, "clrrwi");
        assert_eq!(rlwinm(n, 0, 31 - n), value << n, "slwi");
        assert_eq!(rlwinm(32 - n, n, 31), value >> n, "srwi");
        assert_eq!(rlwinm(n, 0, 31), value.rotate_left(n), "rotlwi");
        assert_eq!(rlwinm(0, (n + 1) % 32, (n + 31) % 32), value & !bit(n), "clrbwi");
    }
}

/// 9.4.15 to 9.4.17: CTR counts before it is looked at, LR is set whether or not the branch goes.
#[test]
fn conditional_branches() {
    let bcl = |bo: u32, bi: u32| 16 << 26 | bo << 21 | bi << 16 | 0x40 | 1;
    let mut start = core();
    (start.ctr, start.cr) = (1, cr::EQ);
    let cases = [
        (0b10000, 0, 4, 0),    // bdnz
        (0b10010, 0, 0x40, 0), // bdz
        (0b01100, 2, 0x40, 1), // beq
        (0b00100, 2, 4, 1),    // bne
        (0b01010, 2, 0x40, 0), // bdz and beq
        (0b10100, 3, 0x40, 1), // always
    ];
    for (bo, bi, iar, ctr) in cases {
        let end = after(start.clone(), &[bcl(bo, bi)]);
        assert_eq!((end.iar, end.ctr, end.lr), (iar, ctr, 4), "BO {bo:05b}");
    }
    (start.lr, start.ctr) = (0x83, 0x102);
    let to_lr = after(start.clone(), &[0x4E80_0021]);
    assert_eq!((to_lr.iar, to_lr.lr), (0x80, 4));
    assert_eq!(after(start, &[0x4E80_0420]).iar, 0x100);
}

/// Table 1.20, 1.21: a fault with UIE set.
#[test]
fn plain_faults() {
    let mut core = core();
    core.msr |= msr::SIBRC | msr::SIBRCA | msr::EE | msr::LP;
    (core.ivpr, core.isr, core.edr) = (0x200, isr::PTR | isr::MFE, 7);
    let before = core.msr;
    let outcome = step(&mut core, &[ILLEGAL], 0);
    assert_eq!(outcome, Outcome::Faulted(Fault::Program { word: ILLEGAL, trap: false }, Taken::Plainly));
    assert_eq!((core.srr0, core.srr1, core.msr), (0, before, msr::ME | msr::SIBRC));
    assert_eq!((core.iar, core.isr, core.edr, core.halt), (0x2E0, isr::MFE, ILLEGAL, 0));
}

/// Table 1.14 with UIE 0 and ME 1, and 4.3.4 with both 0.
#[test]
fn promoted_and_halting_faults() {
    let (outside, crossing) = (d_form(32, 3, 0, 0x200), d_form(36, 3, 0, 6));
    let (pair_outside, pair_unaligned) = (d_form(STVDU, 3, 4, 0x200), d_form(LVDU, 5, 4, 4));
    let cases = [
        (TRAP, 4, 0x0E0, TRAP, isr::PTR | isr::ST),
        (ILLEGAL, 4, 0x0E0, ILLEGAL, isr::ST),
        (crossing, 6, 0x0C0, 6, isr::PTR | isr::ST),
        (outside, 7, 0x060, 0x200, isr::PTR),
        (pair_unaligned, 6, 0x0C0, 4, isr::PTR),
        (pair_outside, 7, 0x060, 0x200, isr::PTR | isr::ST),
    ];
    for (word, status, vector, edr, kept) in cases {
        let mut promoted = zeroed();
        (promoted.msr, promoted.isr) = (msr::ME, isr::PTR | isr::ST | isr::MFE);
        let mut halting = promoted.clone();
        halting.msr = 0;
        step(&mut promoted, &[word], 0);
        assert_eq!((promoted.iar, promoted.msr, promoted.halt), (0, 0, 0));
        assert_eq!((promoted.isr, promoted.edr, promoted.srr1), (kept | status, edr, msr::ME));
        step(&mut halting, &[word], 0);
        assert_eq!((halting.iar, halting.halt, halting.isr, halting.edr), (vector, 1, kept | isr::MFE, edr));
    }
    let mut promoted = zeroed();
    (promoted.msr, promoted.iar, promoted.edr) = (msr::ME, 0x200, 9);
    step(&mut promoted, &[], 0);
    assert_eq!((promoted.isr, promoted.srr0, promoted.edr), (5, 0x200, 9));
}

/// Table 1.29 and 1.96: trap, with and without DBCR[TRAP]; a mark; another TO.
#[test]
fn traps() {
    let mut plain = core();
    assert_eq!(
        step(&mut plain, &[TRAP | 1], 0),
        Outcome::Faulted(Fault::Program { word: TRAP | 1, trap: true }, Taken::Plainly)
    );
    assert_eq!((plain.isr, plain.edr), (isr::PTR, TRAP | 1));
    let mut halting = core();
    halting.dbcr = dbcr::TRAP;
    let before = Core { halt: 3, dec: u32::MAX, tsr: tsr::DIS, ..halting.clone() };
    step(&mut halting, &[TRAP], 0);
    assert_eq!(halting, before);
    let mark = x_form(0, 31, 1, 4, 0);
    assert_eq!(after(core(), &[mark]).iar, 4);
    assert!(!second::legal(Ppe42, x_form(4, 0, 0, 4, 0)) && !second::legal(Ppe42, x_form(31, 11, 0, 4, 1)));
}

/// 4.3.2 and 4.5: priority and vectors of the asynchronous interrupts, the wait state left by one.
#[test]
fn asynchronous_priority() {
    let mut start = core();
    start.msr |= msr::EE | msr::WE;
    start.tcr = tcr::WIE | tcr::FIE | tcr::DIE;
    let cases = [
        (tsr::WIS | tsr::FIS | tsr::DIS, 1, Asynchronous::Watchdog, 0x140),
        (tsr::FIS | tsr::DIS, 1, Asynchronous::External, 0x0A0),
        (tsr::FIS | tsr::DIS, 0, Asynchronous::FixedInterval, 0x120),
        (tsr::DIS, 0, Asynchronous::Decrementer, 0x100),
    ];
    for (status, event, cause, vector) in cases {
        let mut core = Core { tsr: status, ..start.clone() };
        assert_eq!(step(&mut core, &[], event), Outcome::Interrupted(cause));
        assert_eq!((core.iar, core.srr0, core.srr1), (vector, 0, start.msr));
        assert_eq!((core.msr, core.isr, core.edr), (msr::ME, isr::EP, 0));
    }
}

/// 9.4.56, 9.4.69: an interrupt that is enabled is taken before the next instruction; 2.11.5.2: the wait state.
#[test]
fn enabling_and_waiting() {
    let mut start = core();
    (start.gpr[3], start.tcr, start.tsr) = (msr::EE | msr::UIE, tcr::FIE, tsr::FIS);
    let mtmsr = x_form(3, 0, 0, 146, 0);
    let mut end = start.clone();
    end.run(Ppe42, &mut memory(&[mtmsr, BRANCH_TO_ITSELF], 32), &[], 2);
    assert_eq!((end.iar, end.srr0, end.srr1), (0x120, 4, msr::EE | msr::UIE));
    (start.srr0, start.srr1) = (0x44, msr::WE);
    end = after(start, &[RFI, 0]);
    assert_eq!((end.iar, end.msr, end.isr), (0x44, msr::WE, isr::EP));
    assert_eq!(step(&mut end, &[], 1), Outcome::Waited);
}

/// 9.4.104's usage: save MSR, turn EE off, restore EE alone.
#[test]
fn external_enable() {
    let mut start = core();
    start.msr |= msr::EE;
    let (mfmsr, wrtee) = (x_form(28, 0, 0, 83, 0), x_form(28, 0, 0, 131, 0));
    let (off_now, on_now) = (0x7C00_0146, 0x7C00_8146);
    let off = after(start.clone(), &[mfmsr, off_now]);
    assert_eq!((off.gpr[28], off.msr), (start.msr, start.msr & !msr::EE));
    assert_eq!(after(start.clone(), &[mfmsr, off_now, wrtee]).msr, start.msr);
    let on = after(Core { iar: 0, ..off }, &[on_now]);
    assert_eq!(on.msr, start.msr);
}

/// 5.1.1's procedure: the next decrementer interrupt is the programmed one.
#[test]
fn interval_timer() {
    let mut start = core();
    start.msr &= !msr::EE;
    (start.gpr[3], start.gpr[4], start.gpr[5], start.gpr[6]) = (u32::MAX, tsr::DIS, 2, tcr::DIE);
    let procedure = [mtspr(22, 3), mtspr(336, 4), mtspr(22, 5), mtspr(340, 6)];
    let end = after(start.clone(), &procedure);
    assert_eq!((end.dec, end.tsr, end.isr), (1, 0, 0));
    let later = after(start, &[procedure[0], procedure[1], procedure[2], procedure[3], 0x6000_0000, 0x6000_0000]);
    assert_eq!((later.dec, later.tsr, later.isr), (u32::MAX, tsr::DIS, isr::EP));
}

/// 5.1: TCR[DS] selects the decrementer input; a write that sets bit 0 is an event too.
#[test]
fn decrementer() {
    let mut core = core();
    (core.tcr, core.dec) = (tcr::DS_INPUT, 0);
    step(&mut core, &[BRANCH_TO_ITSELF], 0b111101);
    assert_eq!((core.dec, core.tsr & tsr::DIS), (0, 0));
    step(&mut core, &[BRANCH_TO_ITSELF], 0b000010);
    assert_eq!((core.dec, core.tsr), (u32::MAX, tsr::ENW | tsr::FIS | tsr::DIS));
    (core.tsr, core.dec, core.gpr[3]) = (0, 5, 0x8000_0000);
    step(&mut core, &[mtspr(22, 3)], 0);
    assert_eq!((core.dec, core.tsr), (0x8000_0000, tsr::DIS));
}

/// Table 1.25, in the wait state, the watchdog on timer input 2.
#[test]
fn watchdog() {
    let (timer_1, timer_2) = (8, 16);
    let wp_2 = bit(0);
    for (wrc, halt) in [(0, 0), (1, 5), (2, 5), (3, 4)] {
        let mut core = core();
        core.msr |= msr::WE;
        (core.tcr, core.iar) = (wp_2 | wrc << 28 | tcr::DS_INPUT, 0x40);
        for (event, status) in [(timer_1, 0), (timer_2, tsr::ENW), (timer_2, tsr::ENW | tsr::WIS)] {
            assert_eq!((step(&mut core, &[], event), core.tsr), (Outcome::Waited, status));
        }
        let outcome = if wrc == 0 { Outcome::Waited } else { Outcome::WatchdogActed };
        assert_eq!(step(&mut core, &[], timer_2), outcome);
        assert_eq!((core.halt, core.iar), (halt, 0x40));
        assert_eq!((core.tcr, core.tsr & tsr::WRS), (wp_2 | tcr::DS_INPUT, wrc << 28));
    }
    let mut next_disabled = core();
    (next_disabled.tcr, next_disabled.tsr) = (tcr::WRC, tsr::WIS);
    step(&mut next_disabled, &[BRANCH_TO_ITSELF], 4);
    assert_eq!((next_disabled.halt, next_disabled.tsr & tsr::ENW), (0, tsr::ENW));
}

/// 8.10.4: what writing DBCR[RST] does, and that it reads as 00.
#[test]
fn debug_control() {
    for (rst, halt) in [(0, 0), (1, 5), (2, 5), (3, 2)] {
        let mut start = core();
        (start.dbcr, start.gpr[3]) = (dbcr::RST, rst << 28 | 0x0FFF_FFFF);
        let end = after(start, &[mtspr(308, 3)]);
        assert_eq!((end.halt, end.iar, end.dbcr), (halt, 4, dbcr::TRAP | dbcr::IACE | dbcr::DACE));
    }
    let mut start = core();
    start.dbcr = dbcr::defined(Ppe42);
    let end = after(start, &[mfspr(3, 308)]);
    assert_eq!((end.gpr[3], end.dbcr), (dbcr::defined(Ppe42) & !dbcr::RST, dbcr::defined(Ppe42)));
}

/// 8.10: writes to reserved, read-only and write-1-to-clear bits.
#[test]
fn writes_of_all_ones() {
    let mut start = core();
    start.gpr[3] = u32::MAX;
    (start.tsr, start.tcr) = (tsr::DEFINED, tcr::DS_INPUT);
    let end =
        after(start.clone(), &[mtspr(1, 3), mtspr(26, 3), mtspr(27, 3), mtspr(336, 3), mtspr(62, 3), mtspr(340, 3)]);
    assert_eq!((end.xer, end.srr0, end.srr1), (xer::DEFINED, 0xFFFF_FFFC, msr::DEFINED));
    assert_eq!((end.tsr, end.isr, end.tcr), (0, isr::DEFINED & !isr::EP, tcr::defined(Ppe42)));
    assert_eq!(after(start.clone(), &[mtspr(336, 4)]).tsr, tsr::DEFINED);
    let to_cr = x_form(3, 8, 0, 144, 0);
    assert_eq!(after(start, &[to_cr]).cr, cr::DEFINED);
    assert!(!second::legal(Ppe42, mtspr(63, 3)) && second::legal(Ppe42, mfspr(3, 63)));
}

/// 9.4.34 and the scope: dcbz clears its block, and outside memory tells the address as computed.
#[test]
fn block_zero() {
    let dcbz = x_form(0, 0, 4, 1014, 0);
    let mut core = core();
    let mut memory = memory(&[dcbz, dcbz], 96);
    memory[32..].fill(0xFF);
    core.gpr[4] = 0x3D;
    core.step(Ppe42, &mut memory, 0);
    assert_eq!((&memory[32..64], &memory[64..]), (&[0; 32][..], &[0xFF; 32][..]));
    core.gpr[4] = 0x7D;
    core.step(Ppe42, &mut memory, 0);
    assert_eq!((core.iar, core.edr, core.isr), (0x060, 0x7D, isr::ST));
    for (extended, rt) in [(86, 3), (278, 31), (470, 0)] {
        let mut start = self::core();
        start.gpr[4] = 0xFFFF_FFF1;
        assert_eq!(after(start, &[x_form(rt, 0, 4, extended, 0)]).iar, 4);
    }
}

/// 2.4.2 and 4.3.3: a branch out of memory faults at the next fetch, at the target.
#[test]
fn fetch_outside() {
    let mut core = core();
    core.run(Ppe42, &mut memory(&[0x4800_0200], 64), &[], 2);
    assert_eq!((core.iar, core.srr0, core.edr, core.isr), (0x080, 0x200, 0, 0));
}

/// Table 1.33 and the restrictions of 9.4.46, 9.4.47 and 9.4.90, for all values of both fields.
#[test]
fn virtual_doubleword_words() {
    for (rt, ra) in (0..32).flat_map(|rt| (0..32).map(move |ra| (rt, ra))) {
        let plain = matches!(rt, 0..=9 | 28..=31) && matches!(ra, 0..=10 | 13 | 28..=31);
        let in_pair = ra == rt || ra == rt + 1 || (rt, ra) == (31, 0);
        let cases = [
            (LVD, plain, Kind::Lvd),
            (LVDU, plain && ra != 0 && !in_pair, Kind::Lvdu),
            (STVD, plain, Kind::Stvd),
            (STVDU, plain && ra != 0, Kind::Stvdu),
        ];
        for (opcode, legal, kind) in cases {
            for displacement in [0, 0x7FFF, 0x8001] {
                let word = Word(d_form(opcode, rt, ra, displacement));
                assert_eq!(word.kind(Ppe42), legal.then_some(kind), "{:08X}", word.0);
            }
        }
    }
    for (extended, rc) in [(17, 0), (17, 1), (145, 0), (145, 1)] {
        assert!(!second::legal(Ppe42, x_form(28, 3, 4, extended, rc)), "lvdx and stvdx are left out");
    }
}

/// Bytes of memory for one word and its doubleword.
const M: u32 = 0x100;

/// A core and its memory, before and after the word at 0.
struct Doubleword {
    start: Core,
    before: Vec<u8>,
    end: Core,
    after: Vec<u8>,
}

/// r4 is the base; the other registers and the bytes after the word tell their own numbers. DEC stands still.
fn doubleword(word: u32, base: u32) -> Doubleword {
    let mut start = Core { tcr: tcr::DS_INPUT, isr: isr::PTR, ..core() };
    for number in GPRS {
        start.gpr[number] = 0xA0B0_C000 + number as u32;
    }
    start.gpr[4] = base;
    let before: Vec<u8> = word.to_be_bytes().into_iter().chain(4..=(M - 1) as u8).collect();
    let (mut end, mut after) = (start.clone(), before.clone());
    end.step(Ppe42, &mut after, 0);
    Doubleword { start, before, end, after }
}

impl Doubleword {
    /// It was executed, and changed these registers and these bytes, and no others.
    fn changed(self, registers: &[(usize, u32)], at: usize, bytes: &[u8]) {
        let (mut core, mut memory) = (Core { iar: 4, ..self.start }, self.before);
        for (number, value) in registers {
            core.gpr[*number] = *value;
        }
        memory[at..at + bytes.len()].copy_from_slice(bytes);
        assert_eq!((self.end, self.after), (core, memory));
    }

    /// It faulted, and only what the interrupt sets is changed.
    fn faulted(self, vector: u32, address: u32, status: u32) {
        let srr1 = self.start.msr;
        let core = Core { iar: vector, srr1, msr: msr::ME, edr: address, isr: isr::PTR | status, ..self.start };
        assert_eq!((self.end, self.after), (core, self.before));
    }
}

/// 8.4, 9.4.46, 9.4.90: the high-order word is in the first register and first in memory; 31 pairs with 0.
#[test]
fn virtual_doubleword_registers() {
    for (high, low) in [(0, 1), (8, 9), (9, 10), (28, 29), (30, 31), (31, 0)] {
        let loaded = [(high, 0x4041_4243), (low, 0x4445_4647)];
        doubleword(d_form(LVD, high as u32, 4, 0x10), 0x30).changed(&loaded, 0, &[]);
        let stored = [0xA0, 0xB0, 0xC0, high as u8, 0xA0, 0xB0, 0xC0, low as u8];
        doubleword(d_form(STVD, high as u32, 4, 0x10), 0x30).changed(&[], 0x40, &stored);
    }
}

/// 9.4.46, 9.4.47, 9.4.90: the address, which goes round 2^32, and a base of 0; the update forms leave it in RA.
#[test]
fn virtual_doubleword_addresses() {
    for (base, displacement) in [(0x80, 0), (0x88, 0xFFF8), (0xFFFF_FF88, 0xF8), (0x8080, 0x8000)] {
        let (loaded, stored) = ([(9, 0x8081_8283), (10, 0x8485_8687)], [0xA0, 0xB0, 0xC0, 9, 0xA0, 0xB0, 0xC0, 10]);
        doubleword(d_form(LVD, 9, 4, displacement), base).changed(&loaded, 0, &[]);
        doubleword(d_form(STVD, 9, 4, displacement), base).changed(&[], 0x80, &stored);
        let updated = [loaded[0], loaded[1], (4, 0x80)];
        doubleword(d_form(LVDU, 9, 4, displacement), base).changed(&updated, 0, &[]);
        doubleword(d_form(STVDU, 9, 4, displacement), base).changed(&updated[2..], 0x80, &stored);
    }
    doubleword(d_form(LVD, 5, 0, 0x80), 0).changed(&[(5, 0x8081_8283), (6, 0x8485_8687)], 0, &[]);
    doubleword(d_form(STVD, 5, 0, 0x80), 0).changed(&[], 0x80, &[0xA0, 0xB0, 0xC0, 5, 0xA0, 0xB0, 0xC0, 6]);
    doubleword(d_form(LVD, 31, 0, 0x80), 0).changed(&[(31, 0x8081_8283), (0, 0x8485_8687)], 0, &[]);
}

/// lvd loads over its base, whose address was formed before; stvd and stvdu store the base as it was.
#[test]
fn virtual_doublewords_of_their_base() {
    doubleword(d_form(LVD, 4, 4, 8), 0x40).changed(&[(4, 0x4849_4A4B), (5, 0x4C4D_4E4F)], 0, &[]);
    doubleword(d_form(LVD, 3, 4, 8), 0x40).changed(&[(3, 0x4849_4A4B), (4, 0x4C4D_4E4F)], 0, &[]);
    doubleword(d_form(LVD, 4, 4, 8), M - 8).faulted(0x060, M, 0);
    for (opcode, updated) in [(STVD, &[][..]), (STVDU, &[(4, 0x48)])] {
        doubleword(d_form(opcode, 4, 4, 8), 0x40).changed(updated, 0x48, &[0, 0, 0, 0x40, 0xA0, 0xB0, 0xC0, 5]);
        doubleword(d_form(opcode, 3, 4, 8), 0x40).changed(updated, 0x48, &[0xA0, 0xB0, 0xC0, 3, 0, 0, 0, 0x40]);
    }
}

/// Tables 1.16 and 1.20: all eight bytes or none, and both registers and RA as they were.
#[test]
fn virtual_doubleword_faults() {
    let unaligned = (1..8).flat_map(|off| [0x40 + off, M - off, M + off, off.wrapping_neg()]);
    let outside = [M, M + 8, 0x8000_0000, 0xFFFF_FFF8];
    for (opcode, status) in [(LVD, 0), (LVDU, 0), (STVD, isr::ST), (STVDU, isr::ST)] {
        let word = d_form(opcode, 9, 4, 8);
        unaligned.clone().for_each(|at| doubleword(word, at.wrapping_sub(8)).faulted(0x0C0, at, status));
        outside.into_iter().for_each(|at| doubleword(word, at.wrapping_sub(8)).faulted(0x060, at, status));
    }
}

/// The last eight bytes are inside: of this memory, and of the smallest there is.
#[test]
fn the_last_virtual_doubleword() {
    let loaded = [(9, 0xF8F9_FAFB), (10, 0xFCFD_FEFF), (4, M - 8)];
    doubleword(d_form(LVDU, 9, 4, 8), M - 16).changed(&loaded, 0, &[]);
    let stored = [0xA0, 0xB0, 0xC0, 28, 0xA0, 0xB0, 0xC0, 29];
    doubleword(d_form(STVD, 28, 4, 8), M - 16).changed(&[], M as usize - 8, &stored);
    let mut memory = memory(&[d_form(STVD, 0, 0, 24)], 32);
    let mut core = core();
    (core.gpr[0], core.gpr[1]) = (0x0123_4567, 0x89AB_CDEF);
    core.step(Ppe42, &mut memory, 0);
    assert_eq!((core.iar, &memory[16..]), (4, &0x0123_4567_89AB_CDEF_u128.to_be_bytes()[..]));
}

/// 9.4.32's example copies a cache block with four pairs of lvdu and stvdu.
#[test]
fn a_block_copied_by_doublewords() {
    let copy = [d_form(LVDU, 28, 3, 8), d_form(STVDU, 28, 4, 8)].repeat(4);
    let mut memory = memory(&copy, 128);
    memory[64..96].copy_from_slice(&std::array::from_fn::<u8, 32, _>(|i| i as u8 + 1));
    let block = memory[64..96].to_vec();
    let mut core = core();
    (core.gpr[3], core.gpr[4]) = (64 - 8, 96 - 8);
    assert_eq!(core.run(Ppe42, &mut memory, &[], 8), 8);
    assert_eq!((&memory[64..96], &memory[96..]), (&block[..], &block[..]));
    assert_eq!((core.gpr[3], core.gpr[4], core.iar), (64 + 24, 96 + 24, 32));
    assert_eq!((core.gpr[28], core.gpr[29]), (0x191A_1B1C, 0x1D1E_1F20));
}
