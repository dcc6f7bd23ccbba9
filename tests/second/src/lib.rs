//! A second bench core, written from the manual, the scope, request C-16 and docs/DECISIONS.md, to hold the proved one
//! against. It plays a 42 or a 42X, as the profile says that it is handed.

#![forbid(unsafe_code)]

mod arithmetic;
pub mod assembler;
mod capture;
pub mod disassembler;
mod execute;
mod interrupts;
mod memory;
mod profile;
mod refusals;
pub mod registers;
mod special;
mod srecord;
mod step;
mod tell;
mod timers;
mod word;

pub use arithmetic::mask;
pub use interrupts::{Asynchronous, Fault, Taken};
pub use profile::Profile;
pub use registers::Core;
pub use step::Outcome;
pub use tell::Access;
pub use word::{spr, Kind, Word};

use refusals::{check_budget, check_core, check_events};

/// Bytes of a state record: 36 big-endian words in the order of a capture.
pub const STATE: usize = capture::STATE;

pub fn legal(profile: Profile, word: u32) -> bool {
    Word(word).kind(profile).is_some()
}

/// Refusal * 2^32 + steps; a refusal leaves every byte as given.
pub fn run(profile: Profile, state: &mut [u8], memory: &mut [u8], events: &[u8], budget: u32) -> u64 {
    run_by(|core, memory| core.run(profile, memory, events, budget), profile, state, memory, events, budget)
}

/// The same, but the run ends already with the first step that leaves IAR at a stop.
pub fn run_until(
    profile: Profile,
    state: &mut [u8],
    memory: &mut [u8],
    events: &[u8],
    stops: &[u8],
    budget: u32,
) -> u64 {
    let run = |core: &mut Core, memory: &mut [u8]| core.run_until(profile, memory, events, stops, budget);
    run_by(run, profile, state, memory, events, budget)
}

/// By a run of the core that is accepted, which gives its steps.
fn run_by(
    run: impl FnOnce(&mut Core, &mut [u8]) -> u32,
    profile: Profile,
    state: &mut [u8],
    memory: &mut [u8],
    events: &[u8],
    budget: u32,
) -> u64 {
    answer(accept(profile, state, memory, events, budget).map(|mut core| {
        let steps = run(&mut core, memory);
        capture::write_words(&core.to_words(), state);
        steps
    }))
}

/// The run and answer of `run`, + 2^63 if the run reached past its memory.
pub fn run_reach(profile: Profile, state: &mut [u8], memory: &mut [u8], events: &[u8], budget: u32) -> u64 {
    run_telling(Core::run_reach, profile, state, memory, events, budget)
}

/// The same, but the run ends already with the first step that reaches past its memory.
pub fn run_inside(profile: Profile, state: &mut [u8], memory: &mut [u8], events: &[u8], budget: u32) -> u64 {
    run_telling(Core::run_inside, profile, state, memory, events, budget)
}

/// A run that gives its steps and whether it reached.
type Telling = fn(&mut Core, Profile, &mut [u8], &[u8], u32) -> (u32, bool);

fn run_telling(run: Telling, profile: Profile, state: &mut [u8], memory: &mut [u8], events: &[u8], budget: u32) -> u64 {
    let mut core = match accept(profile, state, memory, events, budget) {
        Ok(core) => core,
        Err(refusal) => return answer(Err(refusal)),
    };
    let (steps, reached) = run(&mut core, profile, memory, events, budget);
    capture::write_words(&core.to_words(), state);
    answer(Ok(steps)) | (reached as u64) << 63
}

/// The same as `run` for one step.
pub fn step(profile: Profile, state: &mut [u8], memory: &mut [u8], event: u8) -> u64 {
    run(profile, state, memory, &[event], 1)
}

/// Refusal of that step * 2^32 + what it would come to, by its number.
pub fn tell(profile: Profile, state: &[u8], memory: &[u8], event: u8) -> u64 {
    answer(accept(profile, state, memory, &[event], 1).map(|core| core.tell(profile, memory, event).told()))
}

/// The data access that the step would try, or 0 if it tries none or is refused.
pub fn access(profile: Profile, state: &[u8], memory: &[u8], event: u8) -> u64 {
    let access = accept(profile, state, memory, &[event], 1).ok().and_then(|core| core.access(profile, memory, event));
    access.map_or(0, Access::answer)
}

/// The core that a run starts from, or its refusal.
pub fn accept(profile: Profile, state: &[u8], memory: &[u8], events: &[u8], budget: u32) -> Result<Core, u32> {
    let words = capture::read_words(state)?;
    check_core(profile, &words, memory.len())?;
    check_budget(budget)?;
    check_events(events)?;
    Ok(Core::from_words(&words))
}

/// Refusal * 2^32 + the length of the capture's memory.
pub fn capture_check(profile: Profile, file: &[u8]) -> u64 {
    answer(capture::check(profile, file))
}

/// Refusal * 2^32 + bytes written.
pub fn capture_write(profile: Profile, state: &[u8], memory: &[u8], out: &mut [u8]) -> u64 {
    answer(capture::write(profile, state, memory, out))
}

/// Refusal * 2^32 + its line, counted from 1 and not beyond 2^32 - 1; a refusal leaves every byte as given.
pub fn srec_read(memory: &mut [u8], file: &[u8]) -> u64 {
    match srecord::read(memory, file) {
        Ok(()) => 0,
        Err((refusal, line)) => (refusal as u64) << 32 | line.min(u32::MAX as u64),
    }
}

/// Refusal * 2^32 + bytes written.
pub fn srec_write(memory: &[u8], out: &mut [u8]) -> u64 {
    answer(srecord::write(memory, out))
}

/// Refusal * 2^48 + column * 2^32 + word of a line.
pub fn assemble(profile: Profile, line: &[u8]) -> u64 {
    let (refusal, column, word) = assembler::assemble(profile, line);
    (refusal as u64) << 48 | (column as u64) << 32 | word as u64
}

/// Bytes that are always enough for a line.
pub const LINE: usize = 64;

/// 2^32 + bytes of the word's line, which are written, + 2^33 where it leaves out a field that is not 0; 0 for an illegal
/// word; refusal * 2^48 where the buffer is shorter than `LINE`.
pub fn disassemble(profile: Profile, word: u32, out: &mut [u8]) -> u64 {
    if out.len() < LINE {
        return 8 << 48;
    }
    let Some(line) = disassembler::disassemble(profile, word) else {
        return 0;
    };
    out[..line.text.len()].copy_from_slice(line.text.as_bytes());
    1 << 32 | (line.unwritten as u64) << 33 | line.text.len() as u64
}

fn answer(result: Result<u32, u32>) -> u64 {
    match result {
        Ok(count) => count as u64,
        Err(refusal) => (refusal as u64) << 32,
    }
}
