//! That the comparison of the two cores can fail: each 42X below has one flaw, and each is caught.

use differ::same::{compare, Tally};
use draw::Urn;
use linked::{Library, Play, LINKED, LINKED_42X};
use second::Profile::Ppe42x;
use std::cell::Cell;

const CASES: u64 = 3000;

fn caught(of_42x: Library) -> bool {
    let libraries = [LINKED, of_42x];
    (0..CASES).any(|case| compare(&libraries, &mut Urn::of_case(7, case), &mut Tally::default()).is_err())
}

const PVR: usize = 4 * 27;
const SPRG0: usize = 4 * 28;
const TCR: usize = 4 * 31;

const FLAWS: [(&str, Play); 4] = [
    ("the 42X wants a version of its own", |state, memory, events, budget| match state[PVR + 3] % 2 {
        0 => second::run(Ppe42x, state, memory, events, budget),
        _ => 3 << 32,
    }),
    ("DEC counts on the input of timer 1", |state, memory, events, budget| {
        let second_bit = state[TCR + 1] & 0x40 != 0;
        state[TCR + 1] ^= if second_bit { 0x60 } else { 0 };
        let answer = second::run(Ppe42x, state, memory, events, budget);
        state[TCR + 1] ^= if second_bit { 0x60 } else { 0 };
        answer
    }),
    ("a long run shows", |state, memory, events, budget| {
        state[SPRG0] ^= (budget > 300) as u8;
        second::run(Ppe42x, state, memory, events, budget)
    }),
    ("a byte of memory is lost", |state, memory, events, budget| {
        let answer = second::run(Ppe42x, state, memory, events, budget);
        memory[31] = 0;
        answer
    }),
];

thread_local! {
    static FLAWED: Cell<Play> = const { Cell::new(LINKED_42X.run) };
}

/// What is set, for as many steps as the right run up to the stops takes.
fn flawed_until(state: &mut [u8], memory: &mut [u8], events: &[u8], stops: &[u8], budget: u32) -> u64 {
    let (mut after, mut lent) = (state.to_vec(), memory.to_vec());
    let steps = second::run_until(Ppe42x, &mut after, &mut lent, events, stops, budget) as u32;
    FLAWED.get()(state, memory, events, steps)
}

#[test]
fn flaws_of_the_42x() {
    for (name, flawed) in FLAWS {
        FLAWED.set(flawed);
        assert!(caught(Library { run: flawed, ..LINKED_42X }), "{name}");
        assert!(caught(Library { run_reach: flawed, ..LINKED_42X }), "{name}");
        assert!(caught(Library { run_inside: flawed, ..LINKED_42X }), "{name}");
        assert!(caught(Library { run_until: flawed_until, ..LINKED_42X }), "{name}");
    }
    FLAWED.set(LINKED_42X.run);
    assert!(!caught(Library { run_until: flawed_until, ..LINKED_42X }));
}

#[test]
fn the_cores_agree() {
    assert!(!caught(LINKED_42X));
    assert!(!caught(LINKED));
}
