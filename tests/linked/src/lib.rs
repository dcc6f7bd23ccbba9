//! The library under test, through its C functions.

#[cfg(not(archive))]
extern crate exports as _;

/// A function that plays a run: given state, memory, event list and budget.
pub type Play = fn(&mut [u8], &mut [u8], &[u8], u32) -> u64;

/// The same with stops, a byte for each word, before the budget.
pub type Until = fn(&mut [u8], &mut [u8], &[u8], &[u8], u32) -> u64;

/// A function of one step: given state, memory and event byte.
pub type Step = fn(&mut [u8], &mut [u8], u8) -> u64;

/// Added to the answer of a run that reached past its memory.
pub const REACHED: u64 = 1 << 63;

/// A bench core's functions, so that a comparison can be given another core than the linked one.
#[derive(Clone, Copy)]
pub struct Library {
    /// 1 or 0.
    pub legal: fn(u32) -> u32,
    /// 2^32 + the word that reading and writing give, or 0 if illegal.
    pub rewrite: fn(u32) -> u64,
    /// Refusal * 2^32 + steps.
    pub run: Play,
    /// The same, and `REACHED` where it is due.
    pub run_reach: Play,
    /// The same up to the first step that reaches.
    pub run_inside: Play,
    /// As `run` up to the first step that leaves IAR at a stop.
    pub run_until: Until,
    /// As `run` and `run_reach`, by the engine that keeps decoded words.
    pub run_predecoded: Play,
    pub run_predecoded_reach: Play,
    pub step: Step,
    /// Refusal * 2^32 + what the step would do; it may write what it is lent, so that one which does is caught.
    pub tell: Step,
    /// Address + bytes * 2^32, + 2^63 if it writes, or 0; lent the same way.
    pub access: Step,
    /// Refusal * 2^32 + the length of the capture's memory.
    pub capture_check: fn(&[u8]) -> u64,
    /// Refusal * 2^32 + bytes written.
    pub capture_write: fn(&[u8], &[u8], &mut [u8]) -> u64,
    /// Refusal * 2^48 + column * 2^32 + word of a line.
    pub assemble: fn(&[u8]) -> u64,
    /// 2^32 + bytes of the word's line, + 2^33 if it leaves out a field that is not 0, 0 if illegal, or refusal * 2^48.
    pub disassemble: fn(u32, &mut [u8]) -> u64,
    /// Refusal * 2^32 + the number of the refused line of a file of S-records.
    pub srec_read: fn(&mut [u8], &[u8]) -> u64,
    /// Refusal * 2^32 + bytes written.
    pub srec_write: fn(&[u8], &mut [u8]) -> u64,
}

// SAFETY, for each call here and below: the library touches nothing but the buffers that it is lent, within their
// lengths.

/// Functions that run, each with its C name.
macro_rules! runs {
    ($($run:ident $name:ident),*) => {
        extern "C" {
            $(fn $name(
                state: *mut u8,
                state_len: usize,
                memory: *mut u8,
                memory_len: usize,
                events: *const u8,
                events_len: usize,
                budget: u32,
            ) -> u64;)*
        }

        $(fn $run(state: &mut [u8], memory: &mut [u8], events: &[u8], budget: u32) -> u64 {
            let (states, bytes, listed) = (state.len(), memory.len(), events.len());
            unsafe { $name(state.as_mut_ptr(), states, memory.as_mut_ptr(), bytes, events.as_ptr(), listed, budget) }
        })*
    };
}

/// The linked library's functions of one core, by their C names; those of S-records are the same for both.
macro_rules! linked {
    ($(#[$doc:meta])* $linked:ident, $module:ident;
        $legal:ident $rewrite:ident $run:ident $run_reach:ident $run_inside:ident $run_until:ident
        $run_predecoded:ident $run_predecoded_reach:ident $step:ident $tell:ident $access:ident $capture_check:ident
        $capture_write:ident $assemble:ident $disassemble:ident
    ) => {
        $(#[$doc])*
        pub const $linked: Library = $module::LIBRARY;

        mod $module {
            use super::Library;

            extern "C" {
                fn $legal(word: u32) -> u32;
                fn $rewrite(word: u32) -> u64;
                fn $run_until(
                    state: *mut u8,
                    state_len: usize,
                    memory: *mut u8,
                    memory_len: usize,
                    events: *const u8,
                    events_len: usize,
                    stops: *const u8,
                    stops_len: usize,
                    budget: u32,
                ) -> u64;
                fn $step(state: *mut u8, state_len: usize, memory: *mut u8, memory_len: usize, event: u8) -> u64;
                fn $tell(state: *const u8, state_len: usize, memory: *const u8, memory_len: usize, event: u8) -> u64;
                fn $access(state: *const u8, state_len: usize, memory: *const u8, memory_len: usize, event: u8) -> u64;
                fn $capture_check(file: *const u8, len: usize) -> u64;
                fn $capture_write(
                    state: *const u8,
                    state_len: usize,
                    memory: *const u8,
                    memory_len: usize,
                    out: *mut u8,
                    out_len: usize,
                ) -> u64;
                fn $assemble(line: *const u8, len: usize) -> u64;
                fn $disassemble(word: u32, out: *mut u8, out_len: usize) -> u64;
            }

            pub const LIBRARY: Library = Library {
                legal,
                rewrite,
                run,
                run_reach,
                run_inside,
                run_until,
                run_predecoded,
                run_predecoded_reach,
                step,
                tell,
                access,
                capture_check,
                capture_write,
                assemble,
                disassemble,
                srec_read: super::srec_read,
                srec_write: super::srec_write,
            };

            fn legal(word: u32) -> u32 {
                unsafe { $legal(word) }
            }

            fn rewrite(word: u32) -> u64 {
                unsafe { $rewrite(word) }
            }

            runs! {
                run $run, run_reach $run_reach, run_inside $run_inside, run_predecoded $run_predecoded,
                run_predecoded_reach $run_predecoded_reach
            }

            fn run_until(state: &mut [u8], memory: &mut [u8], events: &[u8], stops: &[u8], budget: u32) -> u64 {
                let (states, bytes) = (state.len(), memory.len());
                let (state, memory) = (state.as_mut_ptr(), memory.as_mut_ptr());
                let (listed, stopped) = (events.len(), stops.len());
                let (events, stops) = (events.as_ptr(), stops.as_ptr());
                unsafe { $run_until(state, states, memory, bytes, events, listed, stops, stopped, budget) }
            }

            fn step(state: &mut [u8], memory: &mut [u8], event: u8) -> u64 {
                unsafe { $step(state.as_mut_ptr(), state.len(), memory.as_mut_ptr(), memory.len(), event) }
            }

            fn tell(state: &mut [u8], memory: &mut [u8], event: u8) -> u64 {
                unsafe { $tell(state.as_mut_ptr(), state.len(), memory.as_mut_ptr(), memory.len(), event) }
            }

            fn access(state: &mut [u8], memory: &mut [u8], event: u8) -> u64 {
                unsafe { $access(state.as_mut_ptr(), state.len(), memory.as_mut_ptr(), memory.len(), event) }
            }

            fn capture_check(file: &[u8]) -> u64 {
                unsafe { $capture_check(file.as_ptr(), file.len()) }
            }

            fn capture_write(state: &[u8], memory: &[u8], out: &mut [u8]) -> u64 {
                let (states, bytes, room) = (state.len(), memory.len(), out.len());
                unsafe { $capture_write(state.as_ptr(), states, memory.as_ptr(), bytes, out.as_mut_ptr(), room) }
            }

            fn assemble(line: &[u8]) -> u64 {
                unsafe { $assemble(line.as_ptr(), line.len()) }
            }

            fn disassemble(word: u32, out: &mut [u8]) -> u64 {
                unsafe { $disassemble(word, out.as_mut_ptr(), out.len()) }
            }
        }
    };
}

linked! {
    LINKED, of_42;
    ppe42_legal ppe42_rewrite ppe42_run ppe42_run_reach ppe42_run_inside ppe42_run_until
    ppe42_run_predecoded ppe42_run_predecoded_reach ppe42_step ppe42_tell ppe42_access
    ppe42_capture_check ppe42_capture_write ppe42_assemble ppe42_disassemble
}

linked! {
    /// The same of a 42X.
    LINKED_42X, of_42x;
    ppe42x_legal ppe42x_rewrite ppe42x_run ppe42x_run_reach ppe42x_run_inside ppe42x_run_until
    ppe42x_run_predecoded ppe42x_run_predecoded_reach ppe42x_step ppe42x_tell ppe42x_access
    ppe42x_capture_check ppe42x_capture_write ppe42x_assemble ppe42x_disassemble
}

extern "C" {
    fn ppe42_srec_read(memory: *mut u8, memory_len: usize, file: *const u8, len: usize) -> u64;
    fn ppe42_srec_write(memory: *const u8, memory_len: usize, out: *mut u8, out_len: usize) -> u64;
}

fn srec_read(memory: &mut [u8], file: &[u8]) -> u64 {
    unsafe { ppe42_srec_read(memory.as_mut_ptr(), memory.len(), file.as_ptr(), file.len()) }
}

fn srec_write(memory: &[u8], out: &mut [u8]) -> u64 {
    unsafe { ppe42_srec_write(memory.as_ptr(), memory.len(), out.as_mut_ptr(), out.len()) }
}
