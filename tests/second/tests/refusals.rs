//! The refusal table, its order, and captures.

mod common;

use common::*;
use second::registers::{others, WORDS};
use second::STATE;

fn state(words: [u32; WORDS]) -> Vec<u8> {
    words.iter().flat_map(|word| word.to_be_bytes()).collect()
}

fn with(place: usize, value: u32) -> Vec<u8> {
    let mut words = [0; WORDS];
    words[place] = value;
    state(words)
}

const IAR: usize = 34;
const HALT: usize = 35;

/// The refusal of a run, after seeing that it left everything as given.
fn refusal(state: &[u8], memory_length: usize, events: &[u8], budget: u32) -> u64 {
    let mut after = state.to_vec();
    let mut memory = memory(&[BRANCH_TO_ITSELF], memory_length.max(4));
    memory.truncate(memory_length);
    let before = memory.clone();
    let answer = second::run(Ppe42, &mut after, &mut memory, events, budget);
    assert!(answer >> 32 == 0 || (after == state && memory == before && answer as u32 == 0));
    for run in [second::run_reach, second::run_inside] {
        let (mut after_too, mut memory_too) = (state.to_vec(), before.clone());
        assert_eq!(run(Ppe42, &mut after_too, &mut memory_too, events, budget), answer);
        assert_eq!((&after_too, &memory_too), (&after, &memory));
    }
    refused_alike(state, &before, events, budget, answer >> 32);
    asked_alike(state, &before, events.first().copied().unwrap_or(0));
    answer >> 32
}

/// `run_until` has the same refusal whatever its stops are, also where the run would end before what it is for.
fn refused_alike(state: &[u8], memory: &[u8], events: &[u8], budget: u32, refusal: u64) {
    for stops in [&[][..], &[0], &[255; 9]] {
        let (mut after, mut lent) = (state.to_vec(), memory.to_vec());
        let answer = second::run_until(Ppe42, &mut after, &mut lent, events, stops, budget);
        assert_eq!(answer >> 32, refusal);
        assert!(refusal == 0 || (after == state && lent == memory && answer as u32 == 0));
    }
}

/// `tell` is refused as `step` is, and `access` has none then.
fn asked_alike(state: &[u8], memory: &[u8], event: u8) {
    let refusal = second::step(Ppe42, &mut state.to_vec(), &mut memory.to_vec(), event) >> 32;
    assert_eq!(second::tell(Ppe42, state, memory, event) >> 32, refusal);
    if refusal != 0 {
        assert_eq!(second::tell(Ppe42, state, memory, event), refusal << 32);
        assert_eq!(second::access(Ppe42, state, memory, event), 0);
    }
}

#[test]
fn memory_sizes() {
    let good = with(0, 0);
    for (length, number) in [(0, 1), (4, 1), (31, 1), (32, 0), (33, 1), (64, 0), (1 << 20, 0), ((1 << 20) + 32, 1)] {
        assert_eq!(refusal(&good, length, &[], 1), number, "{length}");
    }
}

#[test]
fn registers() {
    for iar in 1..4 {
        assert_eq!(refusal(&with(IAR, iar), 32, &[], 1), 2);
    }
    for code in 0..=7 {
        assert_eq!(refusal(&with(HALT, code), 32, &[], 1), if code > 5 { 3 } else { 0 });
    }
    for (i, (name, defined)) in others(Ppe42).into_iter().enumerate() {
        for bit in 0..32 {
            let value = 1 << bit;
            assert_eq!(refusal(&with(16 + i, value), 32, &[], 1), if defined & value == 0 { 3 } else { 0 }, "{name}");
        }
    }
}

#[test]
fn defined_bits() {
    let all = u32::MAX;
    let defined = [
        0xF000_0000, all, all, 0x318C_0000, all, all, 0x0000_F4CF, 0xFFFF_FE00, all, 0x7FFF_9DFF, 0x0000_FFFF, all,
        all, 0xFFFF_FFFC, 0x7FFF_9DFF, 0xFFC0_0000, 0xFC00_0000, 0xE000_0000,
    ];
    assert_eq!(others(Ppe42).map(|(_, defined)| defined), defined);
}

#[test]
fn budgets_and_events() {
    let good = with(0, 0);
    let most = 1 << 20;
    for (budget, number) in [(most, 0), (most + 1, 4), (u32::MAX, 4)] {
        assert_eq!(refusal(&good, 32, &[], budget), number);
    }
    assert_eq!(refusal(&good, 32, &[63; 4], 0), 0);
    assert_eq!(refusal(&good, 32, &[0, 64], 1), 5, "beyond the budget");
    assert_eq!(refusal(&good, 32, &vec![0; most as usize], 1), 0);
    assert_eq!(refusal(&good, 32, &vec![0; most as usize + 1], 1), 5);
}

#[test]
fn order() {
    let mut bad = state([0; WORDS]);
    (bad[4 * IAR + 3], bad[4 * HALT + 3]) = (1, 6);
    assert_eq!(refusal(&bad[..STATE - 1], 0, &[64], u32::MAX), 7);
    assert_eq!(refusal(&bad, 0, &[64], u32::MAX), 1);
    assert_eq!(refusal(&bad, 32, &[64], u32::MAX), 2);
    bad[4 * IAR + 3] = 0;
    assert_eq!(refusal(&bad, 32, &[64], u32::MAX), 3);
    bad[4 * HALT + 3] = 5;
    assert_eq!(refusal(&bad, 32, &[64], u32::MAX), 4);
    assert_eq!(refusal(&bad, 32, &[64], 0), 5);
    assert_eq!(refusal(&bad, 32, &[63], 0), 0);
}

#[test]
fn no_steps() {
    let mut halted = with(HALT, 4);
    let mut memory = memory(&[BRANCH_TO_ITSELF], 32);
    assert_eq!(second::run(Ppe42, &mut halted, &mut memory, &[63], 10), 0);
    assert_eq!(second::step(Ppe42, &mut halted, &mut memory, 63), 0);
    assert_eq!(halted, with(HALT, 4));
    assert_eq!(second::step(Ppe42, &mut halted, &mut memory, 64), 5 << 32);
    asked_alike(&halted, &memory, 64);
    let mut running = with(0, 0);
    assert_eq!(second::run(Ppe42, &mut running, &mut memory, &[63], 0), 0);
    assert_eq!(running, with(0, 0));
    assert_eq!(second::step(Ppe42, &mut running, &mut memory, 0), 1);
}

#[test]
fn the_halting_step_counts() {
    let mut state = with(0, 0);
    let mut memory = memory(&[0x6000_0000, ILLEGAL], 32);
    assert_eq!(second::run(Ppe42, &mut state, &mut memory, &[], 10), 2);
    assert_eq!(state[4 * HALT + 3], 1);
}

#[test]
fn captures() {
    let state = with(3, 0x0102_0304);
    let memory = memory(&[BRANCH_TO_ITSELF], 64);
    let mut out = vec![0xEE; 64 + 156 + 5];
    assert_eq!(second::capture_write(Ppe42, &state, &memory, &mut out), 64 + 156);
    assert_eq!(out[64 + 156..], [0xEE; 5]);
    let file = &out[..64 + 156];
    assert_eq!((&file[..64], &file[64..208]), (&memory[..], &state[..]));
    assert_eq!(file[208..], [0, 0, 0, 156, 0, 0, 0, 64, 0, 0, 0, 1]);
    assert_eq!(second::capture_check(Ppe42, file), 64);
    for (place, number) in [(211, 7), (215, 7), (219, 7), (64 + 4 * IAR + 3, 2), (64 + 4 * HALT + 3, 3)] {
        let mut spoilt = file.to_vec();
        spoilt[place] = spoilt[place].wrapping_add(9);
        assert_eq!(second::capture_check(Ppe42, &spoilt), number << 32, "{place}");
    }
    let other = [&[9], &file[1..]].concat();
    assert_eq!(second::capture_check(Ppe42, &other), 64, "any byte of memory");
    assert_eq!(second::capture_check(Ppe42, &file[1..]), 7 << 32);
    assert_eq!(second::capture_check(Ppe42, &[]), 7 << 32);
    let mut short = vec![0xEE; 64 + 155];
    assert_eq!(second::capture_write(Ppe42, &state, &memory, &mut short), 8 << 32);
    assert_eq!(second::capture_write(Ppe42, &state, &memory[..33], &mut short), 1 << 32);
    assert_eq!(second::capture_write(Ppe42, &state[..STATE - 4], &memory, &mut short), 7 << 32);
    assert_eq!(second::capture_write(Ppe42, &with(IAR, 2), &memory, &mut short), 2 << 32);
    assert_eq!(second::capture_write(Ppe42, &with(HALT, 9), &memory, &mut short), 3 << 32);
    assert_eq!(short, [0xEE; 64 + 155]);
}

#[test]
fn captures_of_other_sizes() {
    for (length, answer) in [(32, 32), (33, 1 << 32), (1 << 20, 1 << 20), ((1 << 20) + 32, 1 << 32)] {
        let mut file = vec![0; length + 156];
        let trailer = length + 144;
        for (i, word) in [156, length as u32, 1].into_iter().enumerate() {
            file[trailer + 4 * i..][..4].copy_from_slice(&word.to_be_bytes());
        }
        assert_eq!(second::capture_check(Ppe42, &file), answer);
    }
}
