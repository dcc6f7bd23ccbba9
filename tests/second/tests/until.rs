//! Where a run up to its first stop ends (include/ppe42.h, ppe42_run_until), and where it goes on.

mod common;

use common::*;
use second::registers::msr;
use second::Core;

/// Bytes of lent memory: enough for the vectors up to the program interrupt's.
const M: u32 = 0x100;

const DATA_STORAGE: u32 = 0x60;
const EXTERNAL: u32 = 0xA0;
const PROGRAM: u32 = 0xE0;

/// A byte for each word of memory, and 1 at these addresses.
fn at(addresses: &[u32]) -> Vec<u8> {
    let mut stops = vec![0; M as usize / 4];
    addresses.iter().for_each(|address| stops[*address as usize / 4] = 1);
    stops
}

/// The steps of a run up to its first stop, in memory that starts with the words.
fn steps(core: &Core, words: &[u32], events: &[u8], stops: &[u8], budget: u32) -> u32 {
    let memory = memory(words, M as usize);
    let steps = first(core, &memory, events, stops, budget);
    goes_on(core, &memory, events, stops, budget);
    steps
}

/// The same, once it is seen to leave what `run` of as many steps does.
fn first(core: &Core, memory: &[u8], events: &[u8], stops: &[u8], budget: u32) -> u32 {
    let state = core.to_words().map(u32::to_be_bytes).concat();
    let (mut given, mut lent) = (state.clone(), memory.to_vec());
    let answer = second::run_until(Ppe42, &mut given, &mut lent, events, stops, budget);
    let (mut plain, mut plain_lent) = (state, memory.to_vec());
    assert_eq!(second::run(Ppe42, &mut plain, &mut plain_lent, events, answer as u32), answer);
    assert_eq!((given, lent), (plain, plain_lent));
    answer as u32
}

/// Gone on with until the budget is used or the core halts, with the rest of the list, it is `run`.
fn goes_on(core: &Core, memory: &[u8], events: &[u8], stops: &[u8], budget: u32) {
    let (mut plain, mut plain_lent) = (core.clone(), memory.to_vec());
    let whole = plain.run(Ppe42, &mut plain_lent, events, budget);
    let (mut core, mut memory, mut steps) = (core.clone(), memory.to_vec(), 0);
    while steps < budget && core.halt == 0 {
        let rest = events.get(steps as usize..).unwrap_or(&[]);
        let more = core.run_until(Ppe42, &mut memory, rest, stops, budget - steps);
        assert_ne!(more, 0);
        steps += more;
    }
    assert_eq!((core, memory, steps), (plain, plain_lent, whole));
}

#[test]
fn the_step_that_comes_to_a_stop_is_the_last() {
    let words = [NOP; 8];
    assert_eq!(steps(&core(), &words, &[], &at(&[4]), 7), 1);
    assert_eq!(steps(&core(), &words, &[], &at(&[20]), 7), 5);
    assert_eq!(steps(&core(), &words, &[], &at(&[8, 12, 20]), 7), 2, "the first of several");
    assert_eq!(steps(&core(), &words, &[], &at(&[20]), 5), 5, "with the last of the budget");
    assert_eq!(steps(&core(), &words, &[], &at(&[20]), 4), 4, "the budget is used before it");
    assert_eq!(steps(&core(), &words, &[], &at(&[4]), 0), 0);
}

#[test]
fn the_first_step_is_taken_at_a_stop_too() {
    assert_eq!(steps(&core(), &[NOP; 8], &[], &at(&[0]), 7), 7);
    assert_eq!(steps(&core(), &[NOP; 8], &[], &at(&[0, 8]), 7), 2);
    assert_eq!(steps(&core(), &[BRANCH_TO_ITSELF], &[], &at(&[0]), 7), 1, "it comes to it again");
    assert_eq!(steps(&core(), &[NOP, NOP, 0x4BFF_FFF8], &[], &at(&[0]), 7), 3, "b -8");
}

#[test]
fn the_target_of_a_branch() {
    let branch = 0x4800_0020;
    assert_eq!(steps(&core(), &[NOP, branch], &[], &at(&[0x24]), 5), 2);
    assert_eq!(steps(&core(), &[NOP, branch], &[], &at(&[8, 0x20]), 5), 5, "passed by");
    let mut linked = core();
    linked.lr = 0x40;
    assert_eq!(steps(&linked, &[0x4E80_0020], &[], &at(&[0x40]), 5), 1, "blr");
}

#[test]
fn the_vector_of_an_interrupt() {
    let mut start = core();
    start.msr |= msr::EE;
    assert_eq!(steps(&start, &[NOP; 8], &[0, 0, 1], &at(&[EXTERNAL]), 5), 3);
    assert_eq!(steps(&start, &[NOP; 8], &[], &at(&[EXTERNAL]), 5), 5, "no event");
    assert_eq!(steps(&start, &[NOP; 8], &[0, 0, 1], &at(&[8]), 5), 2, "stopped before it");
    let load = d_form(32, 3, 0, M);
    assert_eq!(steps(&start, &[NOP, load], &[], &at(&[DATA_STORAGE]), 5), 2);
    assert_eq!(steps(&start, &[NOP, ILLEGAL], &[], &at(&[PROGRAM]), 5), 2);
    assert_eq!(steps(&start, &[NOP, TRAP], &[], &at(&[PROGRAM]), 5), 2);
    start.msr = msr::ME;
    assert_eq!(steps(&start, &[NOP, load], &[], &at(&[0, DATA_STORAGE]), 5), 2, "promoted");
}

#[test]
fn each_step_of_a_wait_at_a_stop() {
    let mut waiting = core();
    (waiting.msr, waiting.iar) = (waiting.msr | msr::WE | msr::EE, 4);
    for budget in 1..4 {
        assert_eq!(steps(&waiting, &[], &[], &at(&[4]), budget), 1);
    }
    assert_eq!(steps(&waiting, &[], &[], &at(&[0, 8]), 5), 5);
    assert_eq!(steps(&waiting, &[], &[0, 0, 1], &at(&[EXTERNAL]), 5), 3);
}

#[test]
fn the_list_may_have_any_length() {
    let words = [NOP; 8];
    assert_eq!(steps(&core(), &words, &[], &[], 7), 7);
    assert_eq!(steps(&core(), &words, &[], &at(&[]), 7), 7);
    assert_eq!(steps(&core(), &words, &[], &[1], 7), 7, "the first word alone");
    assert_eq!(steps(&core(), &words, &[], &[0, 0, 0, 1], 7), 3, "the last of four");
    assert_eq!(steps(&core(), &words, &[], &[0, 0, 0], 7), 7, "a word less");
    let mut outside = core();
    outside.ivpr = 0x200;
    let mut longer = vec![0; (0x200 + PROGRAM as usize) / 4];
    assert_eq!(steps(&outside, &[NOP, ILLEGAL], &[], &longer, 9), 4, "up to the step that halts");
    longer.push(1);
    assert_eq!(steps(&outside, &[NOP, ILLEGAL], &[], &longer, 9), 2, "a stop past memory");
    let back = 0x4BFF_FFFC;
    assert_eq!(steps(&core(), &[back], &[], &at(&[M - 4]), 4), 4, "IAR is FFFFFFFC");
    assert_eq!(steps(&core(), &[back], &[], &vec![1; 1 << 20], 9), 2, "and no stop; the vector is one");
}

#[test]
fn a_stop_is_any_byte_but_0() {
    for byte in 0..=255 {
        assert_eq!(steps(&core(), &[NOP; 8], &[], &[0, 0, byte, 0], 7), if byte == 0 { 7 } else { 2 }, "{byte}");
    }
}

#[test]
fn a_run_that_halts() {
    let words = [NOP, NOP, ILLEGAL];
    assert_eq!(steps(&zeroed(), &words, &[], &at(&[12]), 9), 3);
    assert_eq!(steps(&zeroed(), &words, &[], &at(&[4]), 9), 1);
    let mut at_it = zeroed();
    at_it.iar = 8;
    assert_eq!(steps(&at_it, &words, &[], &at(&[8]), 9), 1, "the step that halts leaves IAR at the stop");
    at_it.halt = 3;
    assert_eq!(steps(&at_it, &words, &[], &at(&[8]), 9), 0);
}

/// A loop with an interrupt and its return, for every choice of stops among its words and the handler's.
#[test]
fn every_choice_of_stops() {
    let mut words = vec![0; M as usize / 4];
    words[..4].copy_from_slice(&[NOP, NOP, NOP, 0x4BFF_FFF4]);
    words[EXTERNAL as usize / 4..][..2].copy_from_slice(&[NOP, RFI]);
    let places = [0, 4, 8, 12, EXTERNAL, EXTERNAL + 4];
    let came_to = [4, 8, EXTERNAL, EXTERNAL + 4, 8, 12, 0, 4];
    let mut start = core();
    start.msr |= msr::EE;
    for choice in 0..1 << places.len() {
        let chosen = |place: &u32| choice >> places.iter().position(|other| other == place).unwrap() & 1 != 0;
        let stops = at(&places.iter().copied().filter(chosen).collect::<Vec<_>>());
        let wanted = came_to.iter().position(chosen).map_or(came_to.len(), |step| step + 1);
        let budget = came_to.len() as u32;
        assert_eq!(steps(&start, &words, &[0, 0, 1], &stops, budget), wanted as u32, "{choice:06b}");
    }
}
