//! The proved library, through its C functions: the only place where the core is asked, and the only unsafe one.

use crate::profile::Profile;
use crate::registers::{State, HALT};

/// Bytes of a state, and of a capture after its memory.
pub const STATE: usize = 144;
pub const TRAILER: usize = 156;
/// A memory's length is a multiple of this.
pub const BLOCK: usize = 32;
/// Most bytes of memory, steps of a budget, bytes of an event list.
pub const MOST: usize = 1_048_576;
/// Most bytes of a line of assembly, and of one that a word is written as.
pub const MOST_LINE: usize = 256;
const WRITTEN: usize = 64;
/// Bytes of the S-record of a block of memory, and of the one that ends a file.
const RECORD: usize = 79;
const END_RECORD: usize = 15;

type Run = unsafe extern "C" fn(*mut u8, usize, *mut u8, usize, *const u8, usize, u32) -> u64;
type RunUntil = unsafe extern "C" fn(*mut u8, usize, *mut u8, usize, *const u8, usize, *const u8, usize, u32) -> u64;
type Step = unsafe extern "C" fn(*mut u8, usize, *mut u8, usize, u8) -> u64;
type Ask = unsafe extern "C" fn(*const u8, usize, *const u8, usize, u8) -> u64;

/// The functions that each profile has of its own, with the same arguments and answers.
struct Functions {
    run: Run,
    run_reach: Run,
    run_inside: Run,
    run_predecoded: Run,
    run_predecoded_reach: Run,
    run_until: RunUntil,
    step: Step,
    tell: Ask,
    access: Ask,
    capture_check: unsafe extern "C" fn(*const u8, usize) -> u64,
    capture_write: unsafe extern "C" fn(*const u8, usize, *const u8, usize, *mut u8, usize) -> u64,
    legal: unsafe extern "C" fn(u32) -> u32,
    assemble: unsafe extern "C" fn(*const u8, usize) -> u64,
    disassemble: unsafe extern "C" fn(u32, *mut u8, usize) -> u64,
}

/// Declares the functions of a profile, as include/ppe42.h has them, and makes its table.
macro_rules! functions {
    ($table:ident {
        run: $run:ident,
        run_reach: $run_reach:ident,
        run_inside: $run_inside:ident,
        run_predecoded: $run_predecoded:ident,
        run_predecoded_reach: $run_predecoded_reach:ident,
        run_until: $run_until:ident,
        step: $step:ident,
        tell: $tell:ident,
        access: $access:ident,
        capture_check: $capture_check:ident,
        capture_write: $capture_write:ident,
        legal: $legal:ident,
        assemble: $assemble:ident,
        disassemble: $disassemble:ident,
    }) => {
        functions!(runs $run $run_reach $run_inside $run_predecoded $run_predecoded_reach);
        functions!(asks $tell $access);
        extern "C" {
            fn $run_until(
                state: *mut u8,
                state_len: usize,
                memory: *mut u8,
                memory_len: usize,
                events: *const u8,
                events_len: usize,
                stops: *const u8,
                stops_len: usize,
                budget: u32,
            ) -> u64;
            fn $step(state: *mut u8, state_len: usize, memory: *mut u8, memory_len: usize, event: u8) -> u64;
            fn $capture_check(file: *const u8, len: usize) -> u64;
            fn $capture_write(
                state: *const u8,
                state_len: usize,
                memory: *const u8,
                memory_len: usize,
                out: *mut u8,
                out_len: usize,
            ) -> u64;
            fn $legal(word: u32) -> u32;
            fn $assemble(line: *const u8, len: usize) -> u64;
            fn $disassemble(word: u32, out: *mut u8, out_len: usize) -> u64;
        }
        static $table: Functions = Functions {
            run: $run,
            run_reach: $run_reach,
            run_inside: $run_inside,
            run_predecoded: $run_predecoded,
            run_predecoded_reach: $run_predecoded_reach,
            run_until: $run_until,
            step: $step,
            tell: $tell,
            access: $access,
            capture_check: $capture_check,
            capture_write: $capture_write,
            legal: $legal,
            assemble: $assemble,
            disassemble: $disassemble,
        };
    };
    (runs $($run:ident)*) => {
        extern "C" {
            $(fn $run(
                state: *mut u8,
                state_len: usize,
                memory: *mut u8,
                memory_len: usize,
                events: *const u8,
                events_len: usize,
                budget: u32,
            ) -> u64;)*
        }
    };
    (asks $($ask:ident)*) => {
        extern "C" {
            $(fn $ask(state: *const u8, state_len: usize, memory: *const u8, memory_len: usize, event: u8) -> u64;)*
        }
    };
}

functions!(PPE42 {
    run: ppe42_run,
    run_reach: ppe42_run_reach,
    run_inside: ppe42_run_inside,
    run_predecoded: ppe42_run_predecoded,
    run_predecoded_reach: ppe42_run_predecoded_reach,
    run_until: ppe42_run_until,
    step: ppe42_step,
    tell: ppe42_tell,
    access: ppe42_access,
    capture_check: ppe42_capture_check,
    capture_write: ppe42_capture_write,
    legal: ppe42_legal,
    assemble: ppe42_assemble,
    disassemble: ppe42_disassemble,
});

functions!(PPE42X {
    run: ppe42x_run,
    run_reach: ppe42x_run_reach,
    run_inside: ppe42x_run_inside,
    run_predecoded: ppe42x_run_predecoded,
    run_predecoded_reach: ppe42x_run_predecoded_reach,
    run_until: ppe42x_run_until,
    step: ppe42x_step,
    tell: ppe42x_tell,
    access: ppe42x_access,
    capture_check: ppe42x_capture_check,
    capture_write: ppe42x_capture_write,
    legal: ppe42x_legal,
    assemble: ppe42x_assemble,
    disassemble: ppe42x_disassemble,
});

// S-records are the same for every profile
extern "C" {
    fn ppe42_srec_read(memory: *mut u8, memory_len: usize, file: *const u8, len: usize) -> u64;
    fn ppe42_srec_write(memory: *const u8, memory_len: usize, out: *mut u8, out_len: usize) -> u64;
}

/// Why input was refused, by its number.
pub type Refusal = u32;

/// What an accepted call answers: of a run the count of steps.
#[derive(Clone, Copy, Debug, PartialEq)]
pub struct Answer {
    pub count: u32,
    pub reached: bool,
}

/// What a step does (enum ppe42_told).
#[derive(Clone, Copy, Debug, PartialEq)]
pub enum Told {
    Halted,
    Executes,
    Waits,
    WatchdogActs,
    Takes(Interrupt),
    Faults(Fault),
}

#[derive(Clone, Copy, Debug, PartialEq)]
pub enum Interrupt {
    External,
    Decrementer,
    FixedInterval,
    Watchdog,
}

#[derive(Clone, Copy, Debug, PartialEq)]
pub enum Fault {
    DataStorage,
    InstructionStorage,
    Alignment,
    Illegal,
    Trap,
}

/// The data access that a step tries: up to eight bytes, a block, or the whole of a frame.
#[derive(Clone, Copy, Debug, PartialEq)]
pub struct Access {
    pub address: u32,
    pub bytes: u32,
    pub writes: bool,
}

/// A line of assembly that is no word: why, and in which column of it, from 0.
#[derive(Clone, Copy, Debug, PartialEq)]
pub struct Refused {
    pub refusal: Refusal,
    pub column: usize,
}

/// A file of S-records that was not read: why, and for which line of it, from 1.
#[derive(Clone, Copy, Debug, PartialEq)]
pub struct RefusedLine {
    pub refusal: Refusal,
    pub line: usize,
}

/// A word as a line of assembly.
#[derive(Clone, Debug, PartialEq)]
pub struct Line {
    pub text: String,
    /// The word sets a field that lines do not write, so that the line alone is another word.
    pub more: bool,
}

fn accepted(answer: u64) -> Result<Answer, Refusal> {
    match (answer >> 32) as u32 & 0x7FFF_FFFF {
        0 => Ok(Answer { count: answer as u32, reached: answer >> 63 == 1 }),
        refusal => Err(refusal),
    }
}

// SAFETY, for each call: the library touches nothing but the buffers that it is lent, within their lengths.

impl Profile {
    fn functions(self) -> &'static Functions {
        match self {
            Profile::Ppe42 => &PPE42,
            Profile::Ppe42X => &PPE42X,
        }
    }

    /// A run: up to `budget` steps, fewer if the core halts.
    pub fn run(self, state: &mut State, memory: &mut [u8], events: &[u8], budget: u32) -> Result<Answer, Refusal> {
        played(self.functions().run, state, memory, events, budget)
    }

    /// The same run; it tells whether it reached past its memory.
    pub fn run_reach(
        self,
        state: &mut State,
        memory: &mut [u8],
        events: &[u8],
        budget: u32,
    ) -> Result<Answer, Refusal> {
        played(self.functions().run_reach, state, memory, events, budget)
    }

    /// The same run, but it ends with the first step that reaches past its memory, and tells so.
    pub fn run_inside(
        self,
        state: &mut State,
        memory: &mut [u8],
        events: &[u8],
        budget: u32,
    ) -> Result<Answer, Refusal> {
        played(self.functions().run_inside, state, memory, events, budget)
    }

    /// As `run`, by the engine that keeps decoded words.
    pub fn run_predecoded(
        self,
        state: &mut State,
        memory: &mut [u8],
        events: &[u8],
        budget: u32,
    ) -> Result<Answer, Refusal> {
        played(self.functions().run_predecoded, state, memory, events, budget)
    }

    /// As `run_reach`, by the same engine.
    pub fn run_predecoded_reach(
        self,
        state: &mut State,
        memory: &mut [u8],
        events: &[u8],
        budget: u32,
    ) -> Result<Answer, Refusal> {
        played(self.functions().run_predecoded_reach, state, memory, events, budget)
    }

    /// As `run`, but it ends with the first step that leaves IAR at a stop: at a word whose byte of `stops` is not 0.
    pub fn run_until(
        self,
        state: &mut State,
        memory: &mut [u8],
        events: &[u8],
        stops: &[u8],
        budget: u32,
    ) -> Result<Answer, Refusal> {
        let run = self.functions().run_until;
        let state = &mut state.0;
        accepted(unsafe {
            run(
                state.as_mut_ptr(),
                state.len(),
                memory.as_mut_ptr(),
                memory.len(),
                events.as_ptr(),
                events.len(),
                stops.as_ptr(),
                stops.len(),
                budget,
            )
        })
    }

    pub fn step(self, state: &mut State, memory: &mut [u8], event: u8) -> Result<Answer, Refusal> {
        let step = self.functions().step;
        let state = &mut state.0;
        accepted(unsafe { step(state.as_mut_ptr(), state.len(), memory.as_mut_ptr(), memory.len(), event) })
    }

    /// What the next step will do.
    pub fn tell(self, state: &State, memory: &[u8], event: u8) -> Result<Told, Refusal> {
        Ok(match accepted(asked(self.functions().tell, state, memory, event))?.count {
            1 => Told::Executes,
            2 => Told::Waits,
            3 => Told::WatchdogActs,
            4 => Told::Takes(Interrupt::External),
            5 => Told::Takes(Interrupt::Decrementer),
            6 => Told::Takes(Interrupt::FixedInterval),
            7 => Told::Takes(Interrupt::Watchdog),
            8 => Told::Faults(Fault::DataStorage),
            9 => Told::Faults(Fault::InstructionStorage),
            10 => Told::Faults(Fault::Alignment),
            11 => Told::Faults(Fault::Illegal),
            12 => Told::Faults(Fault::Trap),
            _ => Told::Halted,
        })
    }

    /// The data access that the next step will try.
    pub fn access(self, state: &State, memory: &[u8], event: u8) -> Option<Access> {
        let answer = asked(self.functions().access, state, memory, event);
        let bytes = (answer >> 32) as u32 & 0x7FFF_FFFF;
        (bytes != 0).then_some(Access { address: answer as u32, bytes, writes: answer >> 63 == 1 })
    }

    /// The length of a capture's memory.
    pub fn capture_check(self, file: &[u8]) -> Result<usize, Refusal> {
        let check = self.functions().capture_check;
        accepted(unsafe { check(file.as_ptr(), file.len()) }).map(|answer| answer.count as usize)
    }

    pub fn capture_write(self, state: &State, memory: &[u8]) -> Result<Vec<u8>, Refusal> {
        let write = self.functions().capture_write;
        let mut out = vec![0; memory.len() + TRAILER];
        let answer = unsafe {
            write(state.0.as_ptr(), state.0.len(), memory.as_ptr(), memory.len(), out.as_mut_ptr(), out.len())
        };
        accepted(answer).map(|_| out)
    }

    /// The refusal that a run from here gives: one of no steps is checked and changes nothing.
    pub fn start_check(self, state: &State, memory: &[u8]) -> Result<(), Refusal> {
        self.run(&mut state.clone(), &mut memory.to_vec(), &[], 0).map(|_| ())
    }

    pub fn legal(self, word: u32) -> bool {
        unsafe { (self.functions().legal)(word) == 1 }
    }

    /// The word of a line.
    pub fn assemble(self, line: &[u8]) -> Result<u32, Refused> {
        let answer = unsafe { (self.functions().assemble)(line.as_ptr(), line.len()) };
        match (answer >> 48) as u32 {
            0 => Ok(answer as u32),
            refusal => Err(Refused { refusal, column: (answer >> 32) as usize & 0xFFFF }),
        }
    }

    /// The line of a word; none if it is illegal.
    pub fn disassemble(self, word: u32) -> Option<Line> {
        let mut out = [0; WRITTEN];
        let answer = unsafe { (self.functions().disassemble)(word, out.as_mut_ptr(), out.len()) };
        let text = String::from_utf8_lossy(&out[..answer as u32 as usize]).into_owned();
        (answer != 0).then_some(Line { text, more: answer >> 33 & 1 == 1 })
    }
}

fn played(run: Run, state: &mut State, memory: &mut [u8], events: &[u8], budget: u32) -> Result<Answer, Refusal> {
    let state = &mut state.0;
    accepted(unsafe {
        run(state.as_mut_ptr(), state.len(), memory.as_mut_ptr(), memory.len(), events.as_ptr(), events.len(), budget)
    })
}

fn asked(ask: Ask, state: &State, memory: &[u8], event: u8) -> u64 {
    unsafe { ask(state.0.as_ptr(), state.0.len(), memory.as_ptr(), memory.len(), event) }
}

/// S-records into memory, all of them or none.
pub fn srec_read(memory: &mut [u8], file: &[u8]) -> Result<(), RefusedLine> {
    let answer = unsafe { ppe42_srec_read(memory.as_mut_ptr(), memory.len(), file.as_ptr(), file.len()) };
    match (answer >> 32) as u32 {
        0 => Ok(()),
        refusal => Err(RefusedLine { refusal, line: answer as u32 as usize }),
    }
}

/// Memory as a file of S-records.
pub fn srec_write(memory: &[u8]) -> Result<Vec<u8>, Refusal> {
    let mut out = vec![0; memory.len() / BLOCK * RECORD + END_RECORD];
    accepted(unsafe { ppe42_srec_write(memory.as_ptr(), memory.len(), out.as_mut_ptr(), out.len()) }).map(|_| out)
}

pub fn halted(state: &State) -> bool {
    state.get(HALT) != 0
}
