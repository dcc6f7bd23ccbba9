//! The library's refusals in words: what is wrong, where, and what to do.

use crate::capture::Capture;
use crate::firmware;
use crate::library::{Refusal, BLOCK, MOST, STATE, TRAILER};
use crate::profile::Profile;
use crate::registers::{State, HALT, IAR, MOST_HALT, REGISTERS};
use crate::srecords;

/// Of a state and a memory that a run refuses.
pub fn of_start(refusal: Refusal, capture: &Capture) -> String {
    of_state(refusal, capture.profile, &capture.state, capture.memory.len())
}

fn of_state(refusal: Refusal, profile: Profile, state: &State, memory: usize) -> String {
    match refusal {
        1 => format!("refusal 1: a memory of {memory} bytes; lend a multiple of {BLOCK}, from {BLOCK} to {MOST}"),
        2 => format!("refusal 2: IAR is {:08X}; give it a multiple of 4", state.get(IAR)),
        3 => format!("refusal 3: {}{}", reserved(profile, state), wider(profile, state)),
        _ => format!("refusal {refusal}: docs/CORE.md says what that is"),
    }
}

/// Of a line of S-records, as far as the number alone tells it.
pub fn of_record(refusal: Refusal) -> &'static str {
    match refusal {
        13 => "the line is no record, has a wrong check byte, is of another type than the data, or follows the end",
        14 => "it has a byte for an address outside the memory",
        15 => "it names a byte that an earlier line has named",
        16 => "there is no end record, or not the one that the data records want",
        17 => "its count is not that of the data records before it",
        _ => "docs/CORE.md says what that is",
    }
}

/// Of a file that is no capture, or one that no run accepts.
pub fn of_capture(refusal: Refusal, profile: Profile, file: &[u8]) -> String {
    let memory = file.len().saturating_sub(TRAILER);
    if refusal == 7 {
        return format!("refusal 7: {}", not_a_capture(file));
    }
    let mut state = State::zero();
    state.0.copy_from_slice(&file[memory..memory + STATE]);
    let wrong = of_state(refusal, profile, &state, memory);
    if refusal == 1 {
        return wrong;
    }
    format!("{wrong} (in the file, words are at byte {memory} and on, in the order of docs/CORE.md, The capture)")
}

fn not_a_capture(file: &[u8]) -> String {
    let length = file.len();
    if firmware::is_elf(file) {
        return "it is an ELF; ./ppe42 make makes a capture of it".into();
    }
    if srecords::is_surely(file) {
        return "it is a file of S-records; ./ppe42 make makes a capture of it".into();
    }
    if length < BLOCK + TRAILER {
        let least = BLOCK + TRAILER;
        return format!("it has {length} bytes, and the shortest capture has {least}; have it sent again, whole");
    }
    let word = |k: usize| u32::from_be_bytes([file[k], file[k + 1], file[k + 2], file[k + 3]]);
    let found: Vec<String> = [12, 8, 4].iter().map(|back| word(length - back).to_string()).collect();
    let wanted = length - TRAILER;
    format!(
        "a capture of its length ends in the words 156, {wanted}, 1, and it in {}; have it sent again, whole",
        found.join(", ")
    )
}

/// Each register with a reserved bit set, and the bits.
fn reserved(profile: Profile, state: &State) -> String {
    let mut wrong: Vec<String> = Vec::new();
    for (place, register) in REGISTERS.iter().enumerate() {
        let bits = state.get(place) & !register.bits(profile).defined;
        if bits != 0 {
            wrong.push(format!("{} is {:08X}: clear its reserved bits {bits:08X}", register.name, state.get(place)));
        }
    }
    if state.get(HALT) > MOST_HALT {
        wrong.push(format!("the halt code is {}: give one from 0 to {MOST_HALT}", state.get(HALT)));
    }
    wrong.join("; ")
}

/// What to do if to another profile no reserved bit is set. The memory was not what is wrong, so that any other will do.
fn wider(profile: Profile, state: &State) -> &'static str {
    match profile.wider() {
        Some(wider) if wider.start_check(state, &[0; BLOCK]) != Err(3) => {
            "; a PPE 42X defines these bits: if this is a 42X's capture, give --42x"
        }
        _ => "",
    }
}
