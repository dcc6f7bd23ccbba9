//! Those that play a loop: the linked library, `second`, and Unicorn where it is built in.

use crate::loops::State;
use linked::{LINKED, LINKED_42X};
use second::Profile::Ppe42;
use std::time::Instant;

/// Where a state has TCR.
const TCR: usize = 4 * 31;

/// Plays so many steps from address 0, and answers the seconds that they took.
pub type Player = fn(&mut State, u32) -> f64;

/// A function that plays a run, as `linked::Play` is.
type Run<'a> = &'a dyn Fn(&mut [u8], &mut [u8], &[u8], u32) -> u64;

/// How many play all that the PPE 42 has; they come first.
pub const OURS: usize = 7;

pub const PLAYERS: &[Player] = &[
    |state, steps| play(&LINKED.run, state, steps),
    |state, steps| play(&LINKED.run_predecoded, state, steps),
    |state, steps| play(&LINKED.run_inside, state, steps),
    play_until,
    |state, steps| play(&LINKED.run_reach, state, steps),
    |state, steps| play(&LINKED_42X.run, state, steps),
    |state, steps| {
        play(&|state, memory, events, budget| second::run(Ppe42, state, memory, events, budget), state, steps)
    },
    #[cfg(feature = "unicorn")]
    emulate,
];

/// The state as the library takes it.
pub fn record(state: &State) -> [u8; second::STATE] {
    let mut record = [0; second::STATE];
    for (bytes, gpr) in record.chunks_exact_mut(4).zip(state.gprs) {
        bytes.copy_from_slice(&gpr.to_be_bytes());
    }
    record[TCR..TCR + 4].copy_from_slice(&state.tcr.to_be_bytes());
    record
}

fn play(run: Run, state: &mut State, steps: u32) -> f64 {
    let mut record = record(state);
    let began = Instant::now();
    let answer = run(&mut record, &mut state.memory, &[], steps);
    let seconds = began.elapsed().as_secs_f64();
    assert_eq!(answer, u64::from(steps), "a core refused the loop or halted in it");
    state.gprs = std::array::from_fn(|i| u32::from_be_bytes(std::array::from_fn(|j| record[4 * i + j])));
    seconds
}

/// With a list for the whole memory and no stop in it.
fn play_until(state: &mut State, steps: u32) -> f64 {
    let stops = vec![0; state.memory.len() / 4];
    play(&|state, memory, events, budget| (LINKED.run_until)(state, memory, events, &stops, budget), state, steps)
}

/// A count makes Unicorn count every instruction.
#[cfg(feature = "unicorn")]
fn emulate(state: &mut State, steps: u32) -> f64 {
    let mut engine = unicorn::Engine::new(state.memory.clone().into());
    engine.set_gprs(state.gprs);
    let began = Instant::now();
    unicorn::done(engine.run(0, steps as usize));
    let seconds = began.elapsed().as_secs_f64();
    *state = State { gprs: engine.gprs(), memory: engine.memory().to_vec(), ..*state };
    seconds
}
