//! The 42X (request C-16): what it has besides the 42, by the words of 9.4 and 8.10, and what stays as it is.

mod common;

use common::*;
use second::assembler::assemble;
use second::disassembler::{disassemble, spellings};
use second::registers::{cr, dbcr, isr, msr, others, tcr, tsr, xer};
use second::{Asynchronous, Core, Fault, Kind, Outcome, Profile, Taken, Word};

/// The core after one step as a 42X of the word at address 0 in 512 bytes.
fn after_42x(mut core: Core, word: u32) -> Core {
    assert!(matches!(core.step(Ppe42x, &mut memory(&[word], 512), 0), Outcome::Executed(_)), "{word:08X}");
    core
}

/// r4 and r5 given, r3 the target.
fn of(word: u32, r4: u32, r5: u32, xer: u32) -> Core {
    let mut start = Core { xer, ..core() };
    (start.gpr[4], start.gpr[5]) = (r4, r5);
    after_42x(start, word)
}

/// DEC does not count, so that a step changes nothing by the way.
fn still() -> Core {
    Core { tcr: tcr::DS_INPUT, ..core() }
}

#[test]
fn the_words_that_the_42x_has_besides() {
    let words = [
        (0x1C64_FFFF, Kind::Mulli),
        (0x7C64_29D6, Kind::Mullw),
        (0x7C64_2DD7, Kind::Mullw),
        (0x7883_0000, Kind::Rldicl),
        (0x7883_07E7, Kind::Rldicr),
        (0x7883_000C, Kind::Rldimi),
        (0xE821_000B, Kind::Lsku),
        (0xF821_FFFB, Kind::Stsku),
    ];
    for (word, kind) in words {
        assert_eq!(Word(word).kind(Ppe42x), Some(kind), "{word:08X}");
        assert_eq!(Word(word).kind(Ppe42), None, "{word:08X}");
    }
}

#[test]
fn what_stays_illegal() {
    let (slvd, srvd) = (x_form(3, 4, 5, 59, 0), x_form(3, 4, 5, 571, 0));
    let (lcxu, stcxu) = (0xE821_000F, 0xF821_FFFF);
    let rldic = 0x7883_0008;
    for word in [slvd, srvd, lcxu, stcxu, rldic, ILLEGAL, d_form(7, 11, 4, 0), x_form(3, 4, 12, 235, 0)] {
        for profile in Profile::BOTH {
            assert!(!second::legal(profile, word), "{word:08X}");
        }
    }
}

/// Both pairs have to be valid ones.
#[test]
fn pairs_of_the_doubleword_rotates() {
    let first = |number: u32| matches!(number, 0..=9 | 28..=31);
    for ds in 0..32 {
        for da in 0..32 {
            for extended in [0, 1, 3] {
                let word = 30 << 26 | ds << 21 | da << 16 | extended << 2;
                assert_eq!(second::legal(Ppe42x, word), first(ds) && first(da), "{word:08X}");
                assert!(!second::legal(Ppe42, word));
            }
        }
    }
}

/// RT is RA and not 0, CX is 0, the extended opcode 3; of lsku DD is 1 to 4095, of stsku it is negative.
#[test]
fn forms_of_the_stack_frames() {
    for (opcode, good) in [(58, 1..4096), (62, 4096..8192)] {
        for dd in 0..8192 {
            assert_eq!(second::legal(Ppe42x, d_form(opcode, 1, 1, dd << 3 | 3)), good.contains(&dd), "{opcode} {dd}");
        }
        let frame = good.start << 3;
        for (rt, ra) in (0..32).flat_map(|rt| (0..32).map(move |ra| (rt, ra))) {
            let defined = matches!(ra, 1..=10 | 13 | 28..=31);
            assert_eq!(second::legal(Ppe42x, d_form(opcode, rt, ra, frame | 3)), rt == ra && defined, "r{rt} r{ra}");
        }
        for low in 0..8 {
            assert_eq!(second::legal(Ppe42x, d_form(opcode, 1, 1, frame | low)), low == 3, "{low}");
        }
    }
}

#[test]
fn products() {
    assert_eq!(of(d_form(7, 3, 4, 0xFFFF), 7, 0, 0).gpr[3], -7i32 as u32);
    assert_eq!(of(d_form(7, 3, 4, 0x7FFF), 0x8000_0001, 0, 0).gpr[3], 0x8000_7FFF);
    let mulli = of(d_form(7, 3, 4, 2), 0x7FFF_FFFF, 0, xer::SO);
    assert_eq!((mulli.gpr[3], mulli.xer, mulli.cr), (0xFFFF_FFFE, xer::SO, 0), "nothing is recorded");
    let mullw = of(x_form(3, 4, 5, 235, 0), 0x1_0000, 0x1_0000, xer::OV);
    assert_eq!((mullw.gpr[3], mullw.xer, mullw.cr), (0, xer::OV, 0));
    assert_eq!(of(x_form(3, 4, 5, 235, 1), u32::MAX, 5, xer::SO).cr, cr::LT | cr::SO);
}

/// OV is set where the signed product does not fit 32 bits and cleared where it does; SO stays.
#[test]
fn overflow_of_a_product() {
    let mullwo = x_form(3, 4, 5, 235 + OE, 1);
    let cases = [
        (0x8000_0000, 1, false, cr::LT),
        (0x8000_0000, u32::MAX, true, cr::LT),
        (0x8000_0000, 0x8000_0000, true, cr::EQ),
        (0x7FFF_FFFF, u32::MAX, false, cr::LT),
        (0x1_0000, 0x8000, true, cr::LT),
        (0xFFFF_0000, 0x8000, false, cr::LT),
        (46341, 46341, true, cr::LT),
        (46340, 46340, false, cr::GT),
    ];
    for (a, b, overflow, sign) in cases {
        let fresh = of(mullwo, a, b, 0);
        let noted = if overflow { xer::SO | xer::OV } else { 0 };
        assert_eq!((fresh.gpr[3], fresh.xer), (a.wrapping_mul(b), noted), "{a:X} {b:X}");
        assert_eq!(fresh.cr, sign | if overflow { cr::SO } else { 0 });
        let after_another = of(mullwo, a, b, xer::SO | xer::OV | xer::CA);
        assert_eq!(after_another.xer, xer::SO | xer::CA | noted, "{a:X} {b:X}");
        assert_eq!(after_another.cr, sign | cr::SO);
    }
}

/// DS, DA, SH, MB or ME, extended opcode and Rc.
fn md_form(ds: u32, da: u32, sh: u32, mask: u32, extended: u32, rc: u32) -> u32 {
    let (sh, mask) = ((sh & 31) << 11 | sh >> 5 << 1, (mask & 31) << 6 | mask >> 5 << 5);
    30 << 26 | ds << 21 | da << 16 | sh | mask | extended << 2 | rc
}

/// (DA) after a rotate of (DS), which r4 and r5 are; DA is r6 and r7.
fn rotated(word: u32, ds: u64, da: u64) -> (u64, u32) {
    let mut start = core();
    (start.gpr[4], start.gpr[5]) = ((ds >> 32) as u32, ds as u32);
    (start.gpr[6], start.gpr[7]) = ((da >> 32) as u32, da as u32);
    let end = after_42x(start, word);
    ((end.gpr[6] as u64) << 32 | end.gpr[7] as u64, end.cr)
}

#[test]
fn doubleword_rotates() {
    let (value, old) = (0x8123_4567_89AB_CDEF, 0x1111_2222_3333_4444);
    for sh in 0..64 {
        for bits in 0..64 {
            let turned = u64::rotate_left(value, sh);
            let from = u64::MAX >> bits;
            assert_eq!(rotated(md_form(4, 6, sh, bits, 0, 0), value, old).0, turned & from);
            assert_eq!(rotated(md_form(4, 6, sh, bits, 1, 0), value, old).0, turned & u64::MAX << (63 - bits));
            let to = u64::MAX << sh;
            let mask = if bits <= 63 - sh { from & to } else { from | to };
            assert_eq!(rotated(md_form(4, 6, sh, bits, 3, 0), value, old).0, turned & mask | old & !mask);
        }
    }
}

/// srdi, sldi and insrdi of Tables 1.90 to 1.92, and what Rc makes of all 64 bits.
#[test]
fn doubleword_rotates_by_their_extended_mnemonics() {
    let value = 0x0000_0001_8000_0000;
    assert_eq!(rotated(md_form(4, 6, 64 - 31, 31, 0, 1), value, 0), (3, cr::GT));
    assert_eq!(rotated(md_form(4, 6, 31, 63 - 31, 1, 1), value, 0), (0xC000_0000_0000_0000, cr::LT));
    assert_eq!(rotated(md_form(4, 6, 64 - 8 - 4, 8, 3, 1), 0xF, u64::MAX << 60), (0xF0F0_0000_0000_0000, cr::LT));
    assert_eq!(rotated(md_form(4, 6, 0, 63, 0, 1), value, 0), (0, cr::EQ));
    assert_eq!(rotated(md_form(4, 6, 0, 0, 0, 1), 1 << 31, 0).1, cr::GT, "the high-order word has the sign");
    assert_eq!(rotated(md_form(4, 6, 0, 31, 1, 1), 1 << 32 | 5, 0), (1 << 32, cr::GT));
}

/// Pairs that share a register: both are read before one is written.
#[test]
fn rotates_of_overlapping_pairs() {
    let mut start = core();
    (start.gpr[4], start.gpr[5], start.gpr[6]) = (1, 2, 3);
    let end = after_42x(start.clone(), md_form(4, 5, 32, 0, 0, 0));
    assert_eq!((end.gpr[4], end.gpr[5], end.gpr[6]), (1, 2, 1));
    let end = after_42x(start, md_form(5, 4, 32, 0, 0, 0));
    assert_eq!((end.gpr[4], end.gpr[5], end.gpr[6]), (3, 2, 3));
    let mut start = core();
    (start.gpr[31], start.gpr[0]) = (7, 9);
    let end = after_42x(start, md_form(31, 31, 32, 0, 0, 0));
    assert_eq!((end.gpr[31], end.gpr[0]), (9, 7));
}

const LSKU: u32 = 58;
const STSKU: u32 = 62;

/// A displacement in bytes, a multiple of eight.
fn frame(opcode: u32, ra: u32, bytes: i32) -> u32 {
    d_form(opcode, ra, ra, bytes as u32 & 0xFFF8 | 3)
}

/// Lent memory: each word holds its address and, in its high-order half, A5A5.
const M: u32 = 128;

fn marked(word: u32) -> Vec<u8> {
    let mut memory: Vec<u8> = (0..M).step_by(4).flat_map(|at| (0xA5A5_0000 | at).to_be_bytes()).collect();
    memory[..4].copy_from_slice(&word.to_be_bytes());
    memory
}

const fn mark(at: u32) -> u32 {
    0xA5A5_0000 | at
}

/// r28 to r31 and LR have values of their own, and so has EDR.
fn framed(ra: u32, stack: u32) -> Core {
    let mut start = Core { lr: 0x11, edr: 0xED, ..still() };
    for number in 28..32 {
        start.gpr[number] = 0x100 + number as u32;
    }
    start.gpr[ra as usize] = stack;
    start
}

/// What a step of the word leaves, and what it came to.
fn stepped(start: &Core, word: u32) -> (Core, Vec<u8>, Outcome) {
    let (mut core, mut memory) = (start.clone(), marked(word));
    let outcome = core.step(Ppe42x, &mut memory, 0);
    (core, memory, outcome)
}

/// Frames of 8, 16, 24 and 40 bytes, popped.
#[test]
fn lsku_is_served() {
    for (bytes, pairs) in [(8, 0), (16, 1), (24, 2), (32, 2), (40, 2)] {
        let start = framed(1, 64);
        let above = 64 + bytes as u32;
        let (end, memory, outcome) = stepped(&start, frame(LSKU, 1, bytes));
        let mut expected = Core { lr: mark(above + 4), edr: above, iar: 4, ..start };
        expected.gpr[1] = above;
        if pairs > 0 {
            (expected.gpr[30], expected.gpr[31]) = (mark(above - 8), mark(above - 4));
        }
        if pairs > 1 {
            (expected.gpr[28], expected.gpr[29]) = (mark(above - 16), mark(above - 12));
        }
        assert_eq!((end, outcome), (expected, Outcome::Executed(Kind::Lsku)), "{bytes}");
        assert_eq!(memory, marked(frame(LSKU, 1, bytes)));
    }
}

/// The largest frame: its lower end may lie outside, and so far below 0 as to come round.
#[test]
fn lsku_of_the_largest_frame() {
    let bytes = 0x7FF8;
    let (end, ..) = stepped(&framed(1, 64u32.wrapping_sub(bytes)), frame(LSKU, 1, bytes as i32));
    assert_eq!((end.gpr[1], end.edr, end.lr), (64, 64, mark(68)));
    assert_eq!((end.gpr[28], end.gpr[31]), (mark(48), mark(60)));
}

/// RA is never loaded, but its neighbour in the pair is.
#[test]
fn lsku_of_a_stack_pointer_in_a_pair() {
    for ra in 28..32 {
        let start = framed(ra, 64);
        let (end, ..) = stepped(&start, frame(LSKU, ra, 24));
        let loaded = [mark(72), mark(76), mark(80), mark(84)];
        let expected: Vec<_> = (28..32).map(|n| if n == ra { 88 } else { loaded[n as usize - 28] }).collect();
        assert_eq!(end.gpr[28..32], expected, "r{ra}");
        // A fault at LR: what was read stays, RA too as it was.
        let start = framed(ra, M - 24);
        let (end, _, outcome) = stepped(&start, frame(LSKU, ra, 24));
        let loaded = [M - 16, M - 12, M - 8, M - 4].map(mark);
        let expected: Vec<_> = (28..32).map(|n| if n == ra { M - 24 } else { loaded[n as usize - 28] }).collect();
        assert_eq!(end.gpr[28..32], expected, "r{ra}");
        assert_eq!(outcome, Outcome::Faulted(Fault::DataStorage { address: M + 4, store: false }, Taken::Plainly));
    }
}

/// What a fault of a frame leaves: the interrupt alone, from which the tests go on.
fn interrupted(start: &Core, fault: Fault) -> Core {
    let (vector, address, store) = match fault {
        Fault::DataStorage { address, store } => (0x60, address, store),
        Fault::Alignment { address, store } => (0xC0, address, store),
        _ => panic!("no fault of a frame"),
    };
    let st = if store { isr::ST } else { 0 };
    Core { iar: vector, srr0: 0, srr1: start.msr, msr: msr::ME, edr: address, isr: st, ..start.clone() }
}

/// Each access of lsku outside, after those that come before it.
#[test]
fn lsku_faults_at_each_place() {
    let outside = |address| Fault::DataStorage { address, store: false };
    // The stack pointer, the frame's bytes, the fault, and the pairs that were loaded before it.
    let cases = [
        (M - 8, 8, outside(M + 4), None, None),
        (M - 16, 16, outside(M + 4), Some(M - 8), None),
        (M - 24, 24, outside(M + 4), Some(M - 8), Some(M - 16)),
        (M - 40, 40, outside(M + 4), Some(M - 8), Some(M - 16)),
        (0u32.wrapping_sub(16), 16, outside(0u32.wrapping_sub(8)), None, None),
        (0u32.wrapping_sub(24), 24, outside(0u32.wrapping_sub(8)), None, None),
        (M, 16, outside(M + 8), None, None),
        (M, 8, outside(M + 12), None, None),
        (0u32.wrapping_sub(16), 24, outside(0u32.wrapping_sub(8)), Some(0), None),
    ];
    for (stack, bytes, fault, r30, r28) in cases {
        let start = framed(1, stack);
        // A word at 0 would be the instruction itself.
        let word = frame(LSKU, 1, bytes);
        let value = |at: u32| if at == 0 { word } else { mark(at) };
        let (end, memory, outcome) = stepped(&start, word);
        let mut expected = interrupted(&start, fault);
        if let Some(at) = r30 {
            (expected.gpr[30], expected.gpr[31]) = (value(at), mark(at + 4));
        }
        if let Some(at) = r28 {
            (expected.gpr[28], expected.gpr[29]) = (value(at), mark(at + 4));
        }
        assert_eq!((end, outcome), (expected, Outcome::Faulted(fault, Taken::Plainly)), "{stack:X} {bytes}");
        assert!(outcome.reached());
        assert_eq!(memory, marked(word));
    }
}

/// (RA) has to be a multiple of eight, inside or outside; EDR is (RA), and nothing is reached.
#[test]
fn frames_of_an_unaligned_stack_pointer() {
    for (opcode, bytes, store) in [(LSKU, 24, false), (STSKU, -24, true)] {
        for stack in [1, 2, 4, 60, 63, M + 4, u32::MAX, 0xFFFF_FFFC] {
            let (start, word) = (framed(1, stack), frame(opcode, 1, bytes));
            let fault = Fault::Alignment { address: stack, store };
            let (end, memory, outcome) = stepped(&start, word);
            assert_eq!((end, outcome), (interrupted(&start, fault), Outcome::Faulted(fault, Taken::Plainly)));
            assert!(!outcome.reached());
            assert_eq!(memory, marked(word));
        }
    }
}

/// What stsku stores: LR, the pairs, the back pointer, as far as it comes.
fn pushed(word: u32, stack: u32, stored: usize, pairs: usize, values: &Core) -> Vec<u8> {
    let mut memory = marked(word);
    let mut stores = vec![(stack.wrapping_add(4), vec![values.lr])];
    let both = [(8, [values.gpr[30], values.gpr[31]]), (16, [values.gpr[28], values.gpr[29]])];
    stores.extend(both[..pairs].iter().map(|(below, pair)| (stack.wrapping_sub(*below), pair.to_vec())));
    stores.push((stack.wrapping_add(Word(word).frame()), vec![stack]));
    for (at, words) in stores.into_iter().take(stored) {
        let bytes: Vec<u8> = words.iter().flat_map(|word| word.to_be_bytes()).collect();
        memory[at as usize..][..bytes.len()].copy_from_slice(&bytes);
    }
    memory
}

#[test]
fn stsku_is_served() {
    for ra in [1, 13, 28, 29, 30, 31] {
        for (bytes, pairs) in [(-8, 0), (-16, 1), (-24, 2), (-32, 2), (-40, 2)] {
            let (start, word) = (framed(ra, 64), frame(STSKU, ra, bytes));
            let below = 64u32.wrapping_add(bytes as u32);
            let (end, memory, outcome) = stepped(&start, word);
            let mut expected = Core { edr: 64, iar: 4, ..start.clone() };
            expected.gpr[ra as usize] = below;
            assert_eq!((end, outcome), (expected, Outcome::Executed(Kind::Stsku)), "r{ra} {bytes}");
            assert_eq!(memory, pushed(word, 64, 9, pairs, &start), "r{ra} {bytes}");
        }
    }
}

/// Each access of stsku outside: what was stored before it stays, and RA is as it was.
#[test]
fn stsku_faults_at_each_place() {
    let outside = |address| Fault::DataStorage { address, store: true };
    let below = |bytes: u32| 0u32.wrapping_sub(bytes);
    // The stack pointer, the frame's bytes, the fault, and how many stores come before it.
    let cases = [
        (M, -8, outside(M + 4), 0),
        (M, -24, outside(M + 4), 0),
        (below(8), -24, outside(below(4)), 0),
        (0, -16, outside(below(8)), 1),
        (0, -24, outside(below(8)), 1),
        (8, -24, outside(below(8)), 2),
        (0, -8, outside(below(8)), 1),
        (8, -16, outside(below(8)), 2),
        (16, -24, outside(below(8)), 3),
        (16, -40, outside(below(24)), 3),
        (64, -0x8000, outside(0xFFFF_8040), 3),
    ];
    for ra in [1, 30] {
        for (stack, bytes, fault, stored) in cases {
            let (start, word) = (framed(ra, stack), frame(STSKU, ra, bytes));
            let (end, memory, outcome) = stepped(&start, word);
            assert_eq!((end, outcome), (interrupted(&start, fault), Outcome::Faulted(fault, Taken::Plainly)));
            assert_eq!(memory, pushed(word, stack, stored, 2.min(bytes.unsigned_abs() as usize / 8 - 1), &start));
            assert!(outcome.reached());
        }
    }
}

/// What is pushed is popped again.
#[test]
fn a_frame_there_and_back() {
    let start = framed(1, 64);
    let mut memory = marked(frame(STSKU, 1, -24));
    memory[4..8].copy_from_slice(&frame(LSKU, 1, 24).to_be_bytes());
    let mut core = start.clone();
    core.step(Ppe42x, &mut memory, 0);
    core.lr = 0;
    core.gpr[28..32].fill(0);
    core.step(Ppe42x, &mut memory, 0);
    assert_eq!(core, Core { iar: 8, edr: 64, ..start });
}

/// include/ppe42.h: the whole frame is told, from its lower end to the upper end of the header above.
#[test]
fn frames_are_told_whole() {
    let asked = |core: &Core, word| {
        let state = core.to_words().map(u32::to_be_bytes).concat();
        let (told, access) = (second::tell, second::access);
        (told(Ppe42x, &state, &marked(word), 0), access(Ppe42x, &state, &marked(word), 0))
    };
    let writes = 1 << 63;
    assert_eq!(asked(&framed(1, 64), frame(LSKU, 1, 8)), (1, 16 << 32 | 64));
    assert_eq!(asked(&framed(1, 64), frame(LSKU, 1, 40)), (1, 48 << 32 | 64));
    assert_eq!(asked(&framed(1, M), frame(LSKU, 1, 0x7FF8)), (8, 0x8000 << 32 | M as u64));
    assert_eq!(asked(&framed(1, 63), frame(LSKU, 1, 8)), (10, 16 << 32 | 63));
    assert_eq!(asked(&framed(1, 64), frame(STSKU, 1, -8)), (1, writes | 16 << 32 | 56));
    assert_eq!(asked(&framed(1, 8), frame(STSKU, 1, -24)), (8, writes | 32 << 32 | 0xFFFF_FFF0));
    assert_eq!(asked(&framed(1, 64), frame(STSKU, 1, -0x8000)), (8, writes | 0x8008 << 32 | 0xFFFF_8040));
    assert_eq!(asked(&framed(1, 61), frame(STSKU, 1, -24)), (10, writes | 32 << 32 | 37));
}

/// A fault of a frame is promoted or halts like any other.
#[test]
fn faults_of_frames_by_uie_and_me() {
    let word = frame(STSKU, 1, -24);
    let promoted = stepped(&Core { msr: msr::ME, ..framed(1, 8) }, word);
    assert_eq!((promoted.0.iar, promoted.0.isr, promoted.0.edr), (0x20, isr::ST | 7, 0xFFFF_FFF8));
    assert_eq!(promoted.1, pushed(word, 8, 2, 2, &framed(1, 8)));
    let halted = stepped(&Core { msr: 0, ..framed(1, 8) }, word);
    assert_eq!((halted.0.iar, halted.0.halt), (0x60, 1));
}

/// Table 1.9: 000 on the 42, 020 on the 42X; the other vectors are the same.
#[test]
fn machine_check_vector() {
    for (profile, offset) in [(Ppe42, 0x000), (Ppe42x, 0x020)] {
        let start = Core { msr: msr::ME, ivpr: 0x400, ..zeroed() };
        let mut core = start.clone();
        core.step(profile, &mut memory(&[ILLEGAL], 512), 0);
        assert_eq!((core.iar, core.isr, core.msr), (0x400 | offset, 4, 0));
        let mut core = Core { msr: msr::UIE, ..start.clone() };
        core.step(profile, &mut memory(&[ILLEGAL], 512), 0);
        assert_eq!(core.iar, 0x4E0);
        let mut core = Core { msr: 0, ..start };
        core.step(profile, &mut memory(&[ILLEGAL], 512), 0);
        assert_eq!((core.iar, core.halt), (0x4E0, 1));
    }
}

/// Table 1.96: on the 42X a tw with TG is a no-op whatever else it holds; on the 42 TG is not looked at.
#[test]
fn trap_with_tg() {
    for (to, ra, rb) in [(0, 0, 0), (31, 0, 0), (31, 11, 12), (5, 3, 4), (0, 27, 31)] {
        let tw = x_form(to, ra, rb, 4, 1);
        for dbcr in [0, dbcr::TRAP] {
            let end = after_42x(Core { dbcr, ..core() }, tw);
            assert_eq!((end.iar, end.halt, end.edr), (4, 0, 0));
        }
    }
    let trap = TRAP | 1;
    let mut core_42 = core();
    let fault = Fault::Program { word: trap, trap: true };
    let outcome = core_42.step(Ppe42, &mut memory(&[trap], 32), 0);
    assert_eq!((outcome, core_42.edr), (Outcome::Faulted(fault, Taken::Plainly), trap));
    for word in [x_form(5, 3, 4, 4, 1), x_form(31, 11, 12, 4, 1)] {
        assert!(!second::legal(Ppe42, word) && second::legal(Ppe42x, word));
    }
    for word in [x_form(5, 3, 4, 4, 0), x_form(31, 11, 12, 4, 0)] {
        assert!(!second::legal(Ppe42x, word), "TG 0 as on the 42");
    }
    let mut core_42x = core();
    let outcome = core_42x.step(Ppe42x, &mut memory(&[TRAP], 32), 0);
    assert_eq!(outcome, Outcome::Faulted(Fault::Program { word: TRAP, trap: true }, Taken::Plainly));
}

/// 8.10.18: 00 every step, 01 timer 1, 10 the decrementer input, 11 timer 3.
#[test]
fn clock_of_the_decrementer() {
    for event in 0..64u8 {
        let counts = [true, event & 8 != 0, event & 2 != 0, event & 32 != 0];
        for (ds, counts) in (0..).zip(counts) {
            let mut core = Core { tcr: ds << tcr::DS_SHIFT, dec: 5, ..core() };
            core.step(Ppe42x, &mut memory(&[NOP], 32), event);
            assert_eq!(core.dec, if counts { 4 } else { 5 }, "DS {ds}, event {event}");
        }
    }
}

/// A timer that drives DEC still drives what else names it.
#[test]
fn one_timer_for_all() {
    let wp_3 = tcr::WP;
    let fp_3 = tcr::FP;
    let mut core = Core { tcr: wp_3 | fp_3 | tcr::DS | tcr::DIE, msr: msr::EE, ..core() };
    let outcome = core.step(Ppe42x, &mut memory(&[NOP], 32), 32);
    assert_eq!(core.tsr, tsr::ENW | tsr::FIS | tsr::DIS);
    assert_eq!((core.dec, outcome), (u32::MAX, Outcome::Interrupted(Asynchronous::Decrementer)));
}

/// 8.10: the bits of DBCR and TCR that the 42X defines besides; all others are those of the 42.
#[test]
fn defined_bits() {
    assert_eq!((dbcr::defined(Ppe42), dbcr::defined(Ppe42x)), (0x318C_0000, 0x318C_00C7));
    assert_eq!((tcr::defined(Ppe42), tcr::defined(Ppe42x)), (0xFFC0_0000, 0xFFE0_0000));
    for ((name, of_42), (_, of_42x)) in others(Ppe42).into_iter().zip(others(Ppe42x)) {
        assert_eq!(of_42 != of_42x, ["DBCR", "TCR"].contains(&name), "{name}");
    }
}

/// A state that holds them is accepted by the 42X alone, and a capture of it.
#[test]
fn states_with_bits_of_the_42x() {
    for bit in [0x80, 0x40, 4, 2, 1] {
        assert_accepted_by_42x_alone(&Core { dbcr: bit, ..core() });
    }
    assert_accepted_by_42x_alone(&Core { tcr: tcr::OF_42X, ..core() });
    let reserved = Core { dbcr: 8, ..core() };
    assert_eq!(second::capture_check(Ppe42x, &capture_of(&reserved)), 3 << 32);
    let version = Core { pvr: 0x42, ..core() };
    assert!(Profile::BOTH.iter().all(|profile| second::capture_check(*profile, &capture_of(&version)) == 32));
}

fn capture_of(core: &Core) -> Vec<u8> {
    let state = core.to_words().map(u32::to_be_bytes).concat();
    let trailer = [156u32, 32, 1].map(u32::to_be_bytes).concat();
    [memory(&[NOP], 32), state, trailer].concat()
}

fn assert_accepted_by_42x_alone(core: &Core) {
    let (state, file) = (core.to_words().map(u32::to_be_bytes).concat(), capture_of(core));
    let step = |profile| second::step(profile, &mut state.clone(), &mut memory(&[NOP], 32), 0);
    assert_eq!((step(Ppe42), step(Ppe42x)), (3 << 32, 1));
    assert_eq!((second::capture_check(Ppe42, &file), second::capture_check(Ppe42x, &file)), (3 << 32, 32));
    let mut out = vec![0; file.len()];
    assert_eq!(second::capture_write(Ppe42, &state, &memory(&[NOP], 32), &mut out), 3 << 32);
    assert_eq!(second::capture_write(Ppe42x, &state, &memory(&[NOP], 32), &mut out), file.len() as u64);
    assert_eq!(out, file);
}

/// They are kept and do nothing; on the 42 a write drops them.
#[test]
fn writes_of_bits_of_the_42x() {
    let mut start = core();
    (start.gpr[3], start.gpr[4]) = (!dbcr::RST, u32::MAX);
    let (to_dbcr, to_tcr) = (mtspr(308, 3), mtspr(340, 4));
    assert_eq!(after_42x(start.clone(), to_dbcr).dbcr, 0x018C_00C7);
    assert_eq!(after_42x(start.clone(), to_tcr).tcr, 0xFFE0_0000);
    assert_eq!(after(start.clone(), &[to_dbcr]).dbcr, 0x018C_0000);
    assert_eq!(after(start.clone(), &[to_tcr]).tcr, 0xFFC0_0000);
    assert_eq!(after_42x(Core { dbcr: dbcr::OF_42X, ..start }, mfspr(5, 308)).gpr[5], dbcr::OF_42X);
}

#[test]
fn lines_of_the_42x() {
    assert_eq!(spellings(Ppe42x).len(), 148 + 13);
    let lines = [
        ("mulli r3,r4,-1", 0x1C64_FFFF),
        ("mullw r3,r4,r5", 0x7C64_29D6),
        ("mullw. r3,r4,r5", 0x7C64_29D7),
        ("mullwo r3,r4,r5", 0x7C64_2DD6),
        ("mullwo. r3,r4,r5", 0x7C64_2DD7),
        ("rldicl r3,r3,0,32", 0x7863_0020),
        ("rldicr r3,r3,32,31", 0x7863_07C6),
        ("rldimi r3,r4,32,0", 0x7883_000E),
        ("rldicl r6,r4,33,31", md_form(4, 6, 33, 31, 0, 0)),
        ("rldicl. r6,r4,0,63", md_form(4, 6, 0, 63, 0, 1)),
        ("rldicr r6,r4,63,0", md_form(4, 6, 63, 0, 1, 0)),
        ("rldicr. r31,r28,1,62", md_form(28, 31, 1, 62, 1, 1)),
        ("rldimi r6,r4,52,8", md_form(4, 6, 52, 8, 3, 0)),
        ("rldimi. r0,r9,32,32", md_form(9, 0, 32, 32, 3, 1)),
        ("lsku r1,8(r1)", 0xE821_000B),
        ("lsku r13,32760(r13)", 0xE9AD_7FFB),
        ("stsku r1,-8(r1)", 0xF821_FFFB),
        ("stsku r31,-32768(r31)", 0xFBFF_8003),
    ];
    for (line, word) in lines {
        assert_eq!(assemble(Ppe42x, line.as_bytes()), (0, 0, word), "{line}");
        let written = disassemble(Ppe42x, word).expect("a legal word");
        assert_eq!((written.text.as_str(), written.unwritten), (line, false));
        assert_eq!(assemble(Ppe42, line.as_bytes()).0, 11, "{line}");
        assert!(disassemble(Ppe42, word).is_none());
    }
}

/// On the 42 the mnemonic is refused where no mnemonic of its own goes on.
#[test]
fn columns_of_what_the_42_lacks() {
    for (line, column) in [("mulli r3,r4,1", 4), ("mullw r3,r4,r5", 4), ("rldicl r6,r4,0,0", 2), ("lsku r1,8(r1)", 1)] {
        assert_eq!(assemble(Ppe42, line.as_bytes()), (11, column, 0), "{line}");
    }
    assert_eq!(assemble(Ppe42, b"stsku r1,-8(r1)"), (11, 2, 0));
    assert_eq!(assemble(Ppe42x, b"stcxu r1,-88(r1)"), (11, 2, 0));
    assert_eq!(assemble(Ppe42x, b"slvd r3,r4,r5"), (11, 2, 0));
}

/// The last three bits of a frame's bytes are dropped; what is left has to be a frame.
#[test]
fn offsets_of_frames() {
    let word = |line: &str| assemble(Ppe42x, line.as_bytes());
    assert_eq!(word("lsku r1,9(r1)"), word("lsku r1,8(r1)"));
    assert_eq!(word("lsku r1,15(r1)"), word("lsku r1,8(r1)"));
    assert_eq!(word("lsku r1,32767(r1)"), word("lsku r1,32760(r1)"));
    assert_eq!(word("stsku r1,-1(r1)"), word("stsku r1,-8(r1)"));
    assert_eq!(word("stsku r1,-9(r1)"), word("stsku r1,-16(r1)"));
    assert_eq!(word("stsku r1,-32761(r1)"), word("stsku r1,-32768(r1)"));
    let no_frame = ["lsku r1,7(r1)", "lsku r1,0(r1)", "lsku r1,-8(r1)", "stsku r1,0(r1)", "stsku r1,7(r1)"];
    let no_range = ["lsku r1,32768(r1)", "stsku r1,-32769(r1)", "rldicl r6,r4,64,0", "rldicl r6,r4,0,-1"];
    let no_register = ["lsku r0,8(r0)", "lsku r1,8(r2)", "stsku r11,-8(r11)", "rldicl r10,r4,0,0", "rldimi r4,r13,0,0"];
    for line in no_frame.into_iter().chain(no_range).chain(no_register).chain(["mulli r3,r4,32768"]) {
        assert_eq!(word(line), (6, 0, 0), "{line}");
    }
    assert_eq!(word("lsku r1,8(0)"), (11, 10, 0), "RA is a register here");
    assert_eq!(word("mulli r3,0,5"), (11, 9, 0));
}

/// The line of a tw with TG is that without it, be that an instruction or not.
#[test]
fn lines_of_tw_with_tg() {
    for (to, ra, rb, text) in [(31, 0, 0, "tw 31,r0,r0"), (5, 11, 27, "tw 5,r11,r27")] {
        let line = disassemble(Ppe42x, x_form(to, ra, rb, 4, 1)).expect("a legal word");
        assert_eq!((line.text.as_str(), line.unwritten), (text, true));
    }
    assert_eq!(assemble(Ppe42x, b"tw 5,r11,r27"), (6, 0, 0));
    assert!(disassemble(Ppe42, x_form(5, 11, 27, 4, 1)).is_none());
}
