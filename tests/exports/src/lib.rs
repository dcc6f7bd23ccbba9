//! The second implementation under the C names of the bench core's library.
//!
//! Each function asks what its C declaration asks: a pointer is good for its length, and no two overlap.

use second::Profile;
use std::slice;

/// Functions that run, each by its name in C and what plays it.
macro_rules! runs {
    ($profile:expr; $($run:ident $play:path),*) => {
        $(
            /// # Safety
            /// See the top.
            #[no_mangle]
            pub unsafe extern "C" fn $run(
                state: *mut u8,
                state_len: usize,
                memory: *mut u8,
                memory_len: usize,
                events: *const u8,
                events_len: usize,
                budget: u32,
            ) -> u64 {
                let (state, memory) = (lent_mut(state, state_len), lent_mut(memory, memory_len));
                $play($profile, state, memory, lent(events, events_len), budget)
            }
        )*
    };
}

/// The functions of one core, by the names that they have in C.
macro_rules! functions {
    ($profile:expr;
        $legal:ident $rewrite:ident $run:ident $run_reach:ident $run_inside:ident $run_until:ident
        $run_predecoded:ident $run_predecoded_reach:ident $step:ident $tell:ident $access:ident $capture_check:ident
        $capture_write:ident $assemble:ident $disassemble:ident
    ) => {
        #[no_mangle]
        pub extern "C" fn $legal(word: u32) -> u32 {
            second::legal($profile, word) as u32
        }

        /// This core reads words in place and has no writer: the answer is the word itself, as demand 2 says.
        #[no_mangle]
        pub extern "C" fn $rewrite(word: u32) -> u64 {
            if second::legal($profile, word) {
                1 << 32 | word as u64
            } else {
                0
            }
        }

        // This core keeps no decoded words: the run is the same by either engine.
        runs! {
            $profile;
            $run second::run, $run_reach second::run_reach, $run_inside second::run_inside,
            $run_predecoded second::run, $run_predecoded_reach second::run_reach
        }

        /// # Safety
        /// See the top.
        #[no_mangle]
        pub unsafe extern "C" fn $run_until(
            state: *mut u8,
            state_len: usize,
            memory: *mut u8,
            memory_len: usize,
            events: *const u8,
            events_len: usize,
            stops: *const u8,
            stops_len: usize,
            budget: u32,
        ) -> u64 {
            let (state, memory) = (lent_mut(state, state_len), lent_mut(memory, memory_len));
            let (events, stops) = (lent(events, events_len), lent(stops, stops_len));
            second::run_until($profile, state, memory, events, stops, budget)
        }

        /// # Safety
        /// See the top.
        #[no_mangle]
        pub unsafe extern "C" fn $step(
            state: *mut u8,
            state_len: usize,
            memory: *mut u8,
            memory_len: usize,
            event: u8,
        ) -> u64 {
            second::step($profile, lent_mut(state, state_len), lent_mut(memory, memory_len), event)
        }

        /// # Safety
        /// See the top.
        #[no_mangle]
        pub unsafe extern "C" fn $tell(
            state: *const u8,
            state_len: usize,
            memory: *const u8,
            memory_len: usize,
            event: u8,
        ) -> u64 {
            second::tell($profile, lent(state, state_len), lent(memory, memory_len), event)
        }

        /// # Safety
        /// See the top.
        #[no_mangle]
        pub unsafe extern "C" fn $access(
            state: *const u8,
            state_len: usize,
            memory: *const u8,
            memory_len: usize,
            event: u8,
        ) -> u64 {
            second::access($profile, lent(state, state_len), lent(memory, memory_len), event)
        }

        /// # Safety
        /// See the top.
        #[no_mangle]
        pub unsafe extern "C" fn $capture_check(file: *const u8, len: usize) -> u64 {
            second::capture_check($profile, lent(file, len))
        }

        /// # Safety
        /// See the top.
        #[no_mangle]
        pub unsafe extern "C" fn $capture_write(
            state: *const u8,
            state_len: usize,
            memory: *const u8,
            memory_len: usize,
            out: *mut u8,
            out_len: usize,
        ) -> u64 {
            let (state, memory) = (lent(state, state_len), lent(memory, memory_len));
            second::capture_write($profile, state, memory, lent_mut(out, out_len))
        }

        /// # Safety
        /// See the top.
        #[no_mangle]
        pub unsafe extern "C" fn $assemble(line: *const u8, len: usize) -> u64 {
            second::assemble($profile, lent(line, len))
        }

        /// # Safety
        /// See the top.
        #[no_mangle]
        pub unsafe extern "C" fn $disassemble(word: u32, out: *mut u8, out_len: usize) -> u64 {
            second::disassemble($profile, word, lent_mut(out, out_len))
        }
    };
}

functions! {
    Profile::Ppe42;
    ppe42_legal ppe42_rewrite ppe42_run ppe42_run_reach ppe42_run_inside ppe42_run_until
    ppe42_run_predecoded ppe42_run_predecoded_reach ppe42_step ppe42_tell ppe42_access
    ppe42_capture_check ppe42_capture_write ppe42_assemble ppe42_disassemble
}

functions! {
    Profile::Ppe42x;
    ppe42x_legal ppe42x_rewrite ppe42x_run ppe42x_run_reach ppe42x_run_inside ppe42x_run_until
    ppe42x_run_predecoded ppe42x_run_predecoded_reach ppe42x_step ppe42x_tell ppe42x_access
    ppe42x_capture_check ppe42x_capture_write ppe42x_assemble ppe42x_disassemble
}

/// # Safety
/// See the top.
#[no_mangle]
pub unsafe extern "C" fn ppe42_srec_read(memory: *mut u8, memory_len: usize, file: *const u8, len: usize) -> u64 {
    second::srec_read(lent_mut(memory, memory_len), lent(file, len))
}

/// # Safety
/// See the top.
#[no_mangle]
pub unsafe extern "C" fn ppe42_srec_write(memory: *const u8, memory_len: usize, out: *mut u8, out_len: usize) -> u64 {
    second::srec_write(lent(memory, memory_len), lent_mut(out, out_len))
}

/// An empty buffer may come with any pointer, a null one too.
unsafe fn lent<'a>(start: *const u8, length: usize) -> &'a [u8] {
    if length == 0 {
        &[]
    } else {
        slice::from_raw_parts(start, length)
    }
}

unsafe fn lent_mut<'a>(start: *mut u8, length: usize) -> &'a mut [u8] {
    if length == 0 {
        &mut []
    } else {
        slice::from_raw_parts_mut(start, length)
    }
}
