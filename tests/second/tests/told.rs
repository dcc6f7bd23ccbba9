//! What a step is told to do and to access before it is taken (include/ppe42.h).

mod common;

use common::*;
use second::registers::{dbcr, isr, msr, tcr, tsr};
use second::{Access, Core};

/// Bytes of lent memory.
const M: u32 = 0x200;

const HALTED: u64 = 0;
const EXECUTES: u64 = 1;
const WAITS: u64 = 2;
const WATCHDOG_ACTS: u64 = 3;
const EXTERNAL: u64 = 4;
const DECREMENTER: u64 = 5;
const FIXED_INTERVAL: u64 = 6;
const WATCHDOG: u64 = 7;
const DATA_STORAGE: u64 = 8;
const INSTRUCTION_STORAGE: u64 = 9;
const ALIGNMENT: u64 = 10;
const ILLEGAL_WORD: u64 = 11;
const TRAPPED: u64 = 12;

/// What is told and accessed at IAR 0, where the word stands.
fn asked(core: &Core, word: u32, event: u8) -> (u64, u64) {
    let (state, memory) = (core.to_words().map(u32::to_be_bytes).concat(), memory(&[word], M as usize));
    (second::tell(Ppe42, &state, &memory, event), second::access(Ppe42, &state, &memory, event))
}

fn told(core: &Core, word: u32, event: u8) -> u64 {
    asked(core, word, event).0
}

/// A store that is served.
const STORE: u32 = 36 << 26 | 3 << 21 | 0x100;

#[test]
fn each_value() {
    let mut enabled = core();
    enabled.msr |= msr::EE;
    let with = |tcr: u32, tsr: u32| Core { tcr, tsr, ..enabled.clone() };
    let waiting = Core { msr: msr::WE, ..core() };
    let outside = Core { iar: M, ..core() };
    let guarded = Core { tcr: tcr::WRC, tsr: tsr::ENW | tsr::WIS, ..core() };
    for halt in 1..=5 {
        assert_eq!(told(&Core { halt, ..enabled.clone() }, STORE, 63), HALTED);
    }
    let values = [
        (core(), STORE, 0, EXECUTES),
        (waiting, STORE, 0, WAITS),
        (guarded, STORE, 4, WATCHDOG_ACTS),
        (enabled.clone(), STORE, 1, EXTERNAL),
        (with(tcr::DIE, tsr::DIS), STORE, 0, DECREMENTER),
        (with(tcr::FIE, tsr::FIS), STORE, 0, FIXED_INTERVAL),
        (with(tcr::WIE, tsr::WIS), STORE, 0, WATCHDOG),
        (core(), d_form(36, 3, 0, M), 0, DATA_STORAGE),
        (outside, STORE, 0, INSTRUCTION_STORAGE),
        (core(), d_form(36, 3, 0, 0x105), 0, ALIGNMENT),
        (core(), ILLEGAL, 0, ILLEGAL_WORD),
        (core(), TRAP, 0, TRAPPED),
    ];
    for (core, word, event, number) in values {
        assert_eq!(told(&core, word, event), number, "{word:08X}");
    }
}

#[test]
fn a_step_that_ends_before_its_instruction_accesses_nothing() {
    let mut start = core();
    assert_ne!(asked(&start, STORE, 0).1, 0);
    assert_ne!(asked(&start, STORE, 1).1, 0, "masked");
    start.msr |= msr::EE;
    assert_eq!(asked(&start, STORE, 1), (EXTERNAL, 0));
    start.msr |= msr::WE;
    assert_eq!(asked(&start, STORE, 0), (WAITS, 0));
    (start.tcr, start.tsr) = (tcr::WRC, tsr::ENW | tsr::WIS);
    assert_eq!(asked(&start, STORE, 5), (WATCHDOG_ACTS, 0));
    start.halt = 4;
    assert_eq!(asked(&start, STORE, 5), (HALTED, 0));
    assert_eq!(asked(&Core { iar: M, ..core() }, STORE, 0), (INSTRUCTION_STORAGE, 0));
}

#[test]
fn however_a_fault_is_taken() {
    for bits in [msr::UIE | msr::ME, msr::UIE, msr::ME, 0] {
        let start = Core { msr: bits, ..zeroed() };
        assert_eq!(asked(&start, d_form(40, 3, 0, M), 0), (DATA_STORAGE, 2 << 32 | M as u64));
        assert_eq!(asked(&start, d_form(40, 3, 0, M + 1), 0), (DATA_STORAGE, (2 << 32) | (M as u64 + 1)));
        assert_eq!(asked(&start, d_form(40, 3, 0, M + 7), 0), (ALIGNMENT, (2 << 32) | (M as u64 + 7)));
        assert_eq!(asked(&start, d_form(LVD, 3, 0, M), 0), (DATA_STORAGE, 8 << 32 | M as u64));
        assert_eq!(asked(&start, d_form(STVDU, 3, 4, M + 4), 0), (ALIGNMENT, 1 << 63 | 8 << 32 | (M as u64 + 4)));
        assert_eq!(asked(&start, ILLEGAL, 0), (ILLEGAL_WORD, 0));
        assert_eq!(asked(&start, TRAP, 0), (TRAPPED, 0));
    }
}

#[test]
fn what_halts_without_a_fault_is_executed() {
    let trapping = Core { dbcr: dbcr::TRAP, ..core() };
    assert_eq!(asked(&trapping, TRAP, 0), (EXECUTES, 0));
    assert_eq!(told(&trapping, d_form(31, 30, 0, 8), 0), ILLEGAL_WORD, "tw with another TO");
    for reset in 1..=3 {
        let mut writing = core();
        writing.gpr[3] = reset << dbcr::RST_SHIFT;
        assert_eq!(asked(&writing, mtspr(308, 3), 0), (EXECUTES, 0));
    }
}

/// The access told for the word is the one that its step makes, as memory or EDR and ISR[ST] show.
fn access_shows(word: u32, address: u32, expected: Access) {
    let mut start = core();
    (start.gpr[5], start.gpr[6], start.gpr[4]) = (0x1122_3344, 0x5566_7788, address);
    let before = [word.to_be_bytes().to_vec(), vec![0xEE; M as usize - 4]].concat();
    assert_eq!(start.access(Ppe42, &before, 0), Some(expected), "{word:08X} at {address:X}");
    let (mut end, mut after) = (start.clone(), before.clone());
    match end.step(Ppe42, &mut after, 0).told() as u64 {
        EXECUTES if expected.writes => {
            let changed: Vec<u32> = (0..M).filter(|i| after[*i as usize] != before[*i as usize]).collect();
            let written: Vec<u32> = (expected.address..expected.address + expected.bytes).collect();
            assert_eq!(changed, written, "{word:08X} at {address:X}");
        }
        EXECUTES if expected.bytes == 8 => assert_eq!(end.gpr[5..7], [0xEEEE_EEEE; 2]),
        EXECUTES => assert_eq!(end.gpr[5..7], [0xEEEE_EEEE_u32 >> (32 - 8 * expected.bytes), 0x5566_7788]),
        DATA_STORAGE | ALIGNMENT => {
            assert_eq!((end.edr, end.isr & isr::ST != 0), (address, expected.writes), "{word:08X}");
        }
        other => panic!("{word:08X} told {other}"),
    }
}

#[test]
fn accesses_of_every_width() {
    let accesses =
        [(1, [34, 35], 87, [38, 39], 215), (2, [40, 41], 279, [44, 45], 407), (4, [32, 33], 23, [36, 37], 151)];
    for (bytes, loads, indexed_load, stores, indexed_store) in accesses {
        for address in [0x100, 0x101, 0x102, 0x107, M - bytes, M - 1, M, M + 1, M + 7, u32::MAX] {
            for (displaced, indexed, writes) in [(loads, indexed_load, false), (stores, indexed_store, true)] {
                let displaced = displaced.map(|opcode| d_form(opcode, 5, 4, 0));
                for word in [displaced[0], displaced[1], x_form(5, 0, 4, indexed, 0)] {
                    access_shows(word, address, Access { address, bytes, writes });
                }
            }
        }
    }
    for (opcode, writes) in [(LVD, false), (LVDU, false), (STVD, true), (STVDU, true)] {
        for address in [0x100, 0x104, M - 8, M - 4, M, M + 4, u32::MAX - 7, u32::MAX] {
            access_shows(d_form(opcode, 5, 4, 0), address, Access { address, bytes: 8, writes });
        }
    }
    for address in [0x100, 0x11F, 0x121, M - 1, M, M + 31, u32::MAX] {
        access_shows(x_form(0, 0, 4, 1014, 0), address, Access { address: address & !31, bytes: 32, writes: true });
    }
}

#[test]
fn the_other_instructions_access_nothing() {
    let mut start = core();
    start.gpr[4] = 0x100;
    let quiet = [x_form(0, 0, 4, 86, 0), x_form(0, 0, 4, 470, 0), x_form(0, 0, 4, 278, 0), 0x7C00_04AC];
    for word in quiet.into_iter().chain([NOP, BRANCH_TO_ITSELF, RFI, mtspr(8, 4), d_form(14, 3, 4, 0)]) {
        assert_eq!(asked(&start, word, 0), (EXECUTES, 0), "{word:08X}");
    }
    let pairs = [d_form(LVD, 10, 4, 0), d_form(LVDU, 3, 4, 0), d_form(STVDU, 3, 0, 0x100), x_form(28, 0, 4, 17, 0)];
    for word in [d_form(33, 4, 4, 0), d_form(37, 3, 0, 0x100), d_form(32, 11, 4, 0)].into_iter().chain(pairs) {
        assert_eq!(asked(&start, word, 0), (ILLEGAL_WORD, 0), "{word:08X}");
    }
}

#[test]
fn answers_have_their_parts() {
    let store = Access { address: 0xFFFF_FFE0, bytes: 32, writes: true };
    assert_eq!(store.answer(), 0x8000_0020_FFFF_FFE0);
    assert_eq!(Access { address: 0, bytes: 1, writes: false }.answer(), 1 << 32);
}
