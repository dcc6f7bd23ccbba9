//! The numbered refusals, in order of check (the scope, "Refusal numbers").

use crate::profile::Profile;
use crate::registers::{others, GPRS, WORDS};

pub const BAD_MEMORY: u32 = 1;
pub const BAD_IAR: u32 = 2;
pub const RESERVED_BIT: u32 = 3;
pub const BAD_BUDGET: u32 = 4;
pub const BAD_EVENTS: u32 = 5;
pub const BAD_CAPTURE: u32 = 7;
pub const SHORT_OUTPUT: u32 = 8;

const MOST: usize = 1_048_576;
/// Memory is whole blocks.
pub const BLOCK: usize = 32;
const HALT_CODES: u32 = 6;
const EVENT_VALUES: u8 = 64;

pub fn check_memory(length: usize) -> Result<(), u32> {
    if length == 0 || !length.is_multiple_of(BLOCK) || length > MOST {
        Err(BAD_MEMORY)
    } else {
        Ok(())
    }
}

/// Refusals 1, 2 and 3.
pub fn check_core(profile: Profile, words: &[u32; WORDS], memory_length: usize) -> Result<(), u32> {
    let [.., iar, halt] = *words;
    let reserved = words[GPRS.len()..].iter().zip(others(profile)).any(|(word, (_, defined))| word & !defined != 0);
    check_memory(memory_length)?;
    if !iar.is_multiple_of(4) {
        Err(BAD_IAR)
    } else if reserved || halt >= HALT_CODES {
        Err(RESERVED_BIT)
    } else {
        Ok(())
    }
}

pub fn check_budget(budget: u32) -> Result<(), u32> {
    if budget as usize > MOST {
        Err(BAD_BUDGET)
    } else {
        Ok(())
    }
}

pub fn check_events(events: &[u8]) -> Result<(), u32> {
    if events.len() > MOST || events.iter().any(|event| *event >= EVENT_VALUES) {
        Err(BAD_EVENTS)
    } else {
        Ok(())
    }
}
