//! The bench's worked numbers (the scope, "Worked numbers from the bench" and "Traps for the builder").

mod common;

use common::*;
use second::registers::{cr, isr, xer};
use second::{Core, Kind, Word};

/// r3 and the core after `word` with r4 and r5 as given; the word's target is r3.
fn of(word: u32, r4: u32, r5: u32) -> Core {
    let mut start = core();
    (start.gpr[4], start.gpr[5]) = (r4, r5);
    after(start, &[word])
}

#[test]
fn extsh() {
    let word = x_form(4, 3, 0, 922, 0);
    assert_eq!(of(word, 0x7FFF, 0).gpr[3], 0x7FFF);
    assert_eq!(of(word, 0x8000, 0).gpr[3], 0xFFFF_8000);
}

#[test]
fn compares() {
    assert_eq!(of(d_form(10, 0, 4, 0x8000), 0x8000, 0).cr, cr::EQ);
    assert_eq!(of(d_form(11, 0, 4, 0x8000), 0x8000, 0).cr, cr::GT);
    let (cmpw, cmplw) = (x_form(0, 4, 5, 0, 0), x_form(0, 4, 5, 32, 0));
    assert_eq!(of(cmpw, 0, u32::MAX).cr, cr::GT);
    assert_eq!(of(cmplw, 0, u32::MAX).cr, cr::LT);
}

#[test]
fn negate() {
    let plain = of(x_form(3, 4, 0, 104, 0), 0x8000_0000, 0);
    assert_eq!((plain.gpr[3], plain.xer), (0x8000_0000, 0));
    let noting = of(x_form(3, 4, 0, 104 + OE, 0), 0x8000_0000, 0);
    assert_eq!((noting.gpr[3], noting.xer), (0x8000_0000, xer::SO | xer::OV));
}

#[test]
fn adde_carries() {
    let mut start = core();
    start.xer = xer::CA;
    start.gpr[4] = u32::MAX;
    let end = after(start, &[x_form(3, 4, 5, 138, 0)]);
    assert_eq!((end.gpr[3], end.xer), (0, xer::CA));
}

#[test]
fn sraw() {
    let word = x_form(4, 3, 5, 792, 0);
    let cases = [
        (0x8000_0001, 1, 0xC000_0000, xer::CA),
        (0x8000_0001, 32, 0xFFFF_FFFF, xer::CA),
        (0x4000_0001, 1, 0x2000_0000, 0),
        (0x8000_0000, 1, 0xC000_0000, 0),
        (0x8000_0000, 63, 0xFFFF_FFFF, xer::CA),
        (0x8000_0001, 64, 0x8000_0001, 0),
        (0x7FFF_FFFF, 40, 0, 0),
    ];
    for (value, amount, shifted, carry) in cases {
        let end = of(word, value, amount);
        assert_eq!((end.gpr[3], end.xer), (shifted, carry), "{value:08X} by {amount}");
    }
}

#[test]
fn shifts_count_six_bits() {
    let (slw, srw) = (x_form(4, 3, 5, 24, 0), x_form(4, 3, 5, 536, 0));
    assert_eq!(of(slw, 0x1234_5678, 32).gpr[3], 0);
    assert_eq!(of(slw, 0x1234_5678, 64).gpr[3], 0x1234_5678);
    assert_eq!(of(srw, 0x1234_5678, 32).gpr[3], 0);
    assert_eq!(of(srw, 0x1234_5678, 68).gpr[3], 0x0123_4567);
}

#[test]
fn mask_goes_round() {
    assert_eq!(second::mask(31, 0), 0x8000_0001);
    assert_eq!(second::mask(0, 31), 0xFFFF_FFFF);
    assert_eq!(second::mask(16, 23), 0x0000_FF00);
    assert_eq!(second::mask(7, 7), 0x0100_0000);
}

#[test]
fn cntlzw() {
    let word = x_form(4, 3, 0, 26, 0);
    assert_eq!(of(word, 0, 0).gpr[3], 32);
    assert_eq!(of(word, 0x0000_8000, 0).gpr[3], 16);
}

#[test]
fn halfword_products() {
    let (mullhw, mullhwu) = (0x1064_2B50, 0x1064_2B10);
    assert_eq!(of(mullhw, 0x7FFF, 0xFFFF).gpr[3], 0xFFFF_8001);
    assert_eq!(of(mullhwu, 0x7FFF, 0xFFFF).gpr[3], 0x7FFE_8001);
}

#[test]
fn words() {
    let cases = [(0x3860_0005, Kind::Addi), (0xA064_0000, Kind::Lhz), (0x7C64_0734, Kind::Extsh), (TRAP, Kind::Tw)];
    for (word, kind) in cases {
        assert_eq!(Word(word).kind(Ppe42), Some(kind));
    }
    assert_eq!(after(core(), &[0x3860_0005]).gpr[3], 5);
    let lhz = Word(0xA064_0000);
    assert_eq!((lhz.rt(), lhz.ra(), lhz.si()), (3, 4, 0));
    let extsh = Word(0x7C64_0734);
    assert_eq!((extsh.ra(), extsh.rt()), (4, 3));
}

#[test]
fn illegal_words() {
    let lhzu = 41;
    assert!(second::legal(Ppe42, d_form(lhzu, 3, 4, 2)));
    assert!(!second::legal(Ppe42, d_form(lhzu, 4, 4, 2)), "RA = RT");
    assert!(!second::legal(Ppe42, d_form(lhzu, 3, 0, 2)), "RA = 0");
    assert!(!second::legal(Ppe42, d_form(40, 11, 4, 0)), "lhz into r11");
    assert!(second::legal(Ppe42, d_form(45, 4, 4, 2)), "sthu with RS = RA");
}

#[test]
fn the_last_word_of_memory() {
    let lwz = |at| d_form(32, 3, 0, at);
    let stw = |at| d_form(36, 3, 0, at);
    let run = |word, last| {
        let mut memory = memory(&[word, 0, 0, 0, 0, 0, 0, last], 32);
        let mut core = core();
        core.run(Ppe42, &mut memory, &[], 1);
        core
    };
    let loaded = run(lwz(28), 0x0123_4567);
    assert_eq!((loaded.gpr[3], loaded.iar), (0x0123_4567, 4));
    let outside = run(lwz(32), 0);
    assert_eq!((outside.iar, outside.edr, outside.isr, outside.gpr[3]), (0x060, 32, 0, 0));
    let unaligned = run(lwz(26), 0x0123_4567);
    assert_eq!((unaligned.gpr[3], unaligned.iar), (0x0000_0123, 4));
    let crossing = run(stw(30), 0);
    assert_eq!((crossing.iar, crossing.edr, crossing.isr), (0x0C0, 30, isr::ST));
    for (word, status) in [(lwz(33), 0), (stw(33), isr::ST)] {
        let outside = run(word, 0);
        assert_eq!((outside.iar, outside.edr, outside.isr), (0x060, 33, status));
    }
}

#[test]
fn a_branch_to_itself_uses_its_budget() {
    let mut memory = memory(&[BRANCH_TO_ITSELF], 32);
    let mut state = [0; second::STATE];
    assert_eq!(second::run(Ppe42, &mut state, &mut memory, &[], 1000), 1000);
    assert_eq!(state[136..], [0; 8]);
}

#[test]
fn immediates_of_logic_are_not_extended_by_sign() {
    assert_eq!(of(d_form(24, 4, 3, 0x8000), 0, 0).gpr[3], 0x8000);
    assert_eq!(of(d_form(25, 4, 3, 0x8000), 1, 0).gpr[3], 0x8000_0001);
    assert_eq!(of(d_form(14, 3, 4, 0x8000), 0, 0).gpr[3], 0xFFFF_8000);
}

#[test]
fn a_base_of_r0_is_zero() {
    let mut start = core();
    start.gpr[0] = 0x100;
    let end = after(start.clone(), &[d_form(14, 3, 0, 5), d_form(12, 4, 0, 5), d_form(8, 5, 0, 5)]);
    assert_eq!((end.gpr[3], end.gpr[4], end.gpr[5]), (5, 0x105, 5u32.wrapping_sub(0x100)));
    let lbzx = x_form(3, 0, 4, 87, 0);
    start.gpr[4] = 3;
    assert_eq!(after(start, &[lbzx]).gpr[3], lbzx & 0xFF);
}

#[test]
fn spr_halves_are_swapped() {
    let mut start = core();
    start.sprg0 = 0xCAFE_F00D;
    assert_eq!(after(start, &[0x7C70_42A6]).gpr[3], 0xCAFE_F00D);
    assert!(second::legal(Ppe42, mfspr(3, 272)) && !second::legal(Ppe42, x_form(3, 272 >> 5, 272 & 31, 339, 0)));
}

#[test]
fn an_update_form_that_faults_leaves_ra() {
    for (word, vector) in [(d_form(33, 3, 4, 6), 0x0C0), (d_form(37, 3, 4, 0x400), 0x060)] {
        let mut start = core();
        start.gpr[4] = 0x100;
        let end = after(start, &[word]);
        assert_eq!((end.gpr[4], end.iar), (0x100, vector));
    }
}

#[test]
fn an_update_store_of_its_base_stores_the_old_value() {
    let mut start = core();
    start.gpr[4] = 0x40;
    let mut memory = memory(&[d_form(37, 4, 4, 4)], 128);
    start.run(Ppe42, &mut memory, &[], 1);
    assert_eq!((start.gpr[4], &memory[0x44..0x48]), (0x44, &[0, 0, 0, 0x40][..]));
}
