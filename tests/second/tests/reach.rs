//! When a run has reached past its memory (the scope, "A run"), and when it has not.

mod common;

use common::*;
use second::registers::{dbcr, msr, tcr, tsr};
use second::{Core, Profile};

/// Bytes of lent memory: enough for the vectors up to the external interrupt's.
const M: u32 = 0xC0;

type Run = fn(Profile, &mut [u8], &mut [u8], &[u8], u32) -> u64;

const REACHED: u64 = 1 << 63;

/// What a run answers and leaves.
fn played(run: Run, core: &Core, memory: &[u8], events: &[u8], budget: u32) -> (u64, Vec<u8>, Vec<u8>) {
    let (mut state, mut memory) = (core.to_words().map(u32::to_be_bytes).concat(), memory.to_vec());
    (run(Ppe42, &mut state, &mut memory, events, budget), state, memory)
}

/// The steps of a run and whether it reached, once `run` is seen to leave the same and to answer it without the bit.
fn told(core: &Core, memory: &[u8], events: &[u8], budget: u32) -> (u32, bool) {
    let (answer, state, lent) = played(second::run_reach, core, memory, events, budget);
    assert_eq!((answer & !REACHED, state, lent), played(second::run, core, memory, events, budget));
    stays_inside(core, memory, events, budget);
    (answer as u32, answer & REACHED != 0)
}

/// `run_inside` is `run` where it tells no reach; else a run of a step less has not reached, and one of as many has.
fn stays_inside(core: &Core, memory: &[u8], events: &[u8], budget: u32) {
    let inside = played(second::run_inside, core, memory, events, budget);
    if inside.0 & REACHED == 0 {
        assert_eq!(inside, played(second::run_reach, core, memory, events, budget));
        return;
    }
    let steps = inside.0 as u32;
    assert_eq!(played(second::run_reach, core, memory, events, steps - 1).0, steps as u64 - 1);
    assert_eq!(inside, played(second::run_reach, core, memory, events, steps));
}

/// Whether so many steps reach in memory that starts with the words.
fn reaches(core: &Core, words: &[u32], budget: u32) -> bool {
    told(core, &memory(words, M as usize), &[], budget).1
}

/// Whether the word reaches where r4 is its base or index.
fn reaches_at(address: u32, word: u32) -> bool {
    let mut core = core();
    core.gpr[4] = address;
    reaches(&core, &[word], 1)
}

#[test]
fn loads_and_stores() {
    let accesses = [
        (1, [34, 35, 38, 39], &[87, 215][..]),
        (2, [40, 41, 44, 45], &[279, 407]),
        (4, [32, 33, 36, 37], &[23, 151]),
        (8, [LVD, LVDU, STVD, STVDU], &[]),
    ];
    for (size, displaced, indexed) in accesses {
        let displaced = displaced.map(|opcode| d_form(opcode, 5, 4, 0));
        let indexed = indexed.iter().map(|extended| x_form(5, 0, 4, *extended, 0));
        for word in displaced.into_iter().chain(indexed) {
            for back in size..=8 {
                assert!(!reaches_at(M - back, word), "{word:08X} {back} before the end");
                assert!(reaches_at(M + 8 - back, word), "{word:08X} {back} before the end of the group past it");
                assert!(reaches_at(back.wrapping_neg(), word), "{word:08X} {back} before 2^32");
            }
            for crossing in (1..size).flat_map(|back| [M - back, M + 8 - back, back.wrapping_neg()]) {
                assert!(!reaches_at(crossing, word), "{word:08X} at {crossing:X}");
            }
        }
    }
}

#[test]
fn cache_instructions() {
    let (dcbz, sync) = (x_form(0, 0, 4, 1014, 0), 0x7C00_04AC);
    let edges = [(0, false), (M - 32, false), (M - 1, false), (M, true), (M + 31, true), (u32::MAX, true)];
    for (address, outside) in edges {
        assert_eq!(reaches_at(address, dcbz), outside, "dcbz at {address:X}");
        for quiet in [x_form(0, 0, 4, 86, 0), x_form(0, 0, 4, 470, 0), x_form(0, 0, 4, 278, 0), sync] {
            assert!(!reaches_at(address, quiet), "{quiet:08X} at {address:X}");
        }
    }
}

#[test]
fn fetches() {
    let mut core = core();
    for (iar, outside) in [(0, false), (M - 4, false), (M, true), (0xFFFF_FFFC, true)] {
        core.iar = iar;
        assert_eq!(reaches(&core, &[], 1), outside, "IAR {iar:X}");
    }
}

#[test]
fn leaving_memory_reaches_with_the_next_fetch() {
    let branch = 0x4800_0000 | M;
    assert!(!reaches(&core(), &[branch], 1));
    assert!(reaches(&core(), &[branch], 2));
    let mut last = core();
    last.iar = M - 4;
    let memory = [memory(&[], M as usize - 4), 0x6000_0000u32.to_be_bytes().to_vec()].concat();
    assert_eq!(told(&last, &memory, &[], 1), (1, false));
    assert_eq!(told(&last, &memory, &[], 2), (2, true));
    let mut vectors_outside = core();
    vectors_outside.ivpr = 0x200;
    assert!(!reaches(&vectors_outside, &[ILLEGAL], 1));
    assert!(reaches(&vectors_outside, &[ILLEGAL], 2));
}

#[test]
fn steps_that_do_not_fetch() {
    let memory = memory(&[], M as usize);
    let mut outside = core();
    outside.iar = M;
    let mut waiting = outside.clone();
    waiting.msr |= msr::WE;
    assert_eq!(told(&waiting, &memory, &[], 3), (3, false));
    let mut interrupted = outside.clone();
    interrupted.msr |= msr::EE;
    assert_eq!(told(&interrupted, &memory, &[1], 1), (1, false));
    let mut guarded = outside.clone();
    (guarded.tcr, guarded.tsr) = (tcr::WRC, tsr::ENW | tsr::WIS);
    assert_eq!(told(&guarded, &memory, &[4], 5), (1, false));
    assert_eq!(told(&guarded, &memory, &[0, 4], 5), (2, true), "the watchdog came a step too late");
}

#[test]
fn however_the_interrupt_is_taken() {
    let [outside, unaligned, crossing] = [M, M + 2, M + 6].map(|at| d_form(32, 3, 0, at));
    for bits in [msr::UIE | msr::ME, msr::UIE, msr::ME, 0] {
        let mut start = zeroed();
        start.msr = bits;
        assert!(reaches(&start, &[outside], 1));
        assert!(reaches(&start, &[unaligned], 1));
        assert!(!reaches(&start, &[crossing], 1));
        start.iar = M;
        assert!(reaches(&start, &[], 1));
    }
    assert_eq!(told(&zeroed(), &memory(&[outside], M as usize), &[], 9), (1, true), "the step that halts");
}

#[test]
fn other_faults_and_halts() {
    let pairs = [d_form(LVD, 10, 0, M), d_form(LVDU, 3, 4, M), d_form(STVDU, 3, 0, M)];
    for word in [TRAP, ILLEGAL, d_form(32, 11, 0, M), d_form(33, 3, 0, M)].into_iter().chain(pairs) {
        assert!(!reaches(&core(), &[word], 1), "{word:08X}");
    }
    let mut stopping = core();
    (stopping.dbcr, stopping.gpr[3]) = (dbcr::TRAP, dbcr::RST);
    assert_eq!(told(&stopping, &memory(&[TRAP], M as usize), &[], 9), (1, false));
    assert_eq!(told(&stopping, &memory(&[mtspr(308, 3)], M as usize), &[], 9), (1, false));
}

#[test]
fn no_steps_reach_nothing() {
    let memory = memory(&[], M as usize);
    let mut outside = core();
    outside.iar = M;
    assert_eq!(told(&outside, &memory, &[], 0), (0, false));
    assert_eq!(told(&outside, &memory, &[0, 64], 1), (0, false), "refused with 5");
    assert_eq!(told(&outside, &memory[..M as usize - 4], &[], 1), (0, false), "refused with 1");
    outside.halt = 1;
    assert_eq!(told(&outside, &memory, &[], 9), (0, false));
}

/// A load outside, its handler's return past it, and a branch to itself.
fn returning() -> (Core, Vec<u8>) {
    let mut words = vec![0; M as usize / 4];
    words[..2].copy_from_slice(&[d_form(32, 3, 0, M), BRANCH_TO_ITSELF]);
    words[0x60 / 4..][..4].copy_from_slice(&[mfspr(5, 26), d_form(14, 5, 5, 4), mtspr(26, 5), RFI]);
    (core(), memory(&words, M as usize))
}

#[test]
fn one_reach_is_a_reach_of_the_run() {
    let (start, memory) = returning();
    for budget in 1..9 {
        assert_eq!(told(&start, &memory, &[], budget), (budget, true));
    }
    let (mut rest, mut lent) = (start, memory);
    assert_eq!(rest.run_inside(Ppe42, &mut lent, &[], 9), (1, true));
    assert_eq!(told(&rest, &lent, &[], 9), (9, false), "the same run gone on with after its reach");
}

#[test]
fn each_reach_ends_a_run_inside() {
    let mut words = vec![0; M as usize / 4];
    words[..3].copy_from_slice(&[NOP, NOP, d_form(36, 3, 0, M)]);
    words[0x60 / 4] = RFI;
    let (mut core, mut memory) = (core(), memory(&words, M as usize));
    assert_eq!(core.run_inside(Ppe42, &mut memory, &[], 2), (2, false), "the budget is used before it");
    assert_eq!(core.run_inside(Ppe42, &mut memory, &[], 0), (0, false));
    assert_eq!(core.run_inside(Ppe42, &mut memory, &[], 1), (1, true), "with the last step");
    for _ in 0..3 {
        assert_eq!(core.run_inside(Ppe42, &mut memory, &[], 9), (2, true), "rfi, and the store again");
    }
    core.msr = 0;
    core.iar = 8;
    assert_eq!(core.run_inside(Ppe42, &mut memory, &[], 9), (1, true), "the step that halts");
    assert_eq!((core.halt, core.run_inside(Ppe42, &mut memory, &[], 9)), (1, (0, false)));
}

#[test]
fn a_run_inside_uses_its_events_up_to_the_reach() {
    let words = [NOP, d_form(32, 3, 0, M)];
    let mut start = core();
    start.msr |= msr::EE;
    let memory = memory(&words, M as usize);
    let steps = |events: &[u8]| start.clone().run_inside(Ppe42, &mut memory.clone(), events, 2);
    assert_eq!(steps(&[0, 0, 1]), (2, true));
    assert_eq!(steps(&[0, 1]), (2, false), "interrupted before the load");
}

/// Demand 3: more memory serves the access that fell outside; where none did, it changes nothing.
#[test]
fn more_memory() {
    let (start, memory) = returning();
    let larger = [memory.clone(), vec![0; 32]].concat();
    let after = |core: &Core, memory: &[u8]| {
        let (mut core, mut memory) = (core.clone(), memory.to_vec());
        core.run(Ppe42, &mut memory, &[], 9);
        (core, memory)
    };
    assert_eq!((told(&start, &memory, &[], 9), told(&start, &larger, &[], 9)), ((9, true), (9, false)));
    assert_ne!(after(&start, &memory).0, after(&start, &larger).0);
    let mut inside = start;
    inside.iar = 4;
    assert_eq!((told(&inside, &memory, &[], 9), told(&inside, &larger, &[], 9)), ((9, false), (9, false)));
    assert_eq!(after(&inside, &memory).0, after(&inside, &larger).0);
    assert_eq!(after(&inside, &larger).1, larger);
}
