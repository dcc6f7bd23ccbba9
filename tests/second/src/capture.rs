//! State records as bytes, and captures (the scope, "The capture a site sends").

use crate::profile::Profile;
use crate::refusals::{check_core, BAD_CAPTURE, SHORT_OUTPUT};
use crate::registers::WORDS;

pub const STATE: usize = 4 * WORDS;
/// State and trailer, which follow the memory.
const TAIL: usize = STATE + 12;
const SHORTEST: usize = 32 + TAIL;
const FORM: u32 = 1;

pub fn read_words(state: &[u8]) -> Result<[u32; WORDS], u32> {
    if state.len() != STATE {
        return Err(BAD_CAPTURE);
    }
    Ok(std::array::from_fn(|i| word_at(state, 4 * i)))
}

pub fn write_words(words: &[u32], state: &mut [u8]) {
    for (word, bytes) in words.iter().zip(state.chunks_exact_mut(4)) {
        bytes.copy_from_slice(&word.to_be_bytes());
    }
}

fn word_at(bytes: &[u8], at: usize) -> u32 {
    u32::from_be_bytes([bytes[at], bytes[at + 1], bytes[at + 2], bytes[at + 3]])
}

/// The length of its memory.
pub fn check(profile: Profile, file: &[u8]) -> Result<u32, u32> {
    let length = file.len();
    if length < SHORTEST {
        return Err(BAD_CAPTURE);
    }
    let memory_length = length - TAIL;
    let trailer = [word_at(file, length - 12), word_at(file, length - 8), word_at(file, length - 4)];
    if trailer.map(u64::from) != [TAIL as u64, memory_length as u64, FORM as u64] {
        return Err(BAD_CAPTURE);
    }
    let words = read_words(&file[memory_length..memory_length + STATE])?;
    check_core(profile, &words, memory_length)?;
    Ok(memory_length as u32)
}

/// Bytes written.
pub fn write(profile: Profile, state: &[u8], memory: &[u8], out: &mut [u8]) -> Result<u32, u32> {
    check_core(profile, &read_words(state)?, memory.len())?;
    let length = memory.len() + TAIL;
    if out.len() < length {
        return Err(SHORT_OUTPUT);
    }
    let (memory_part, rest) = out.split_at_mut(memory.len());
    let (state_part, trailer) = rest.split_at_mut(STATE);
    memory_part.copy_from_slice(memory);
    state_part.copy_from_slice(state);
    write_words(&[TAIL as u32, memory.len() as u32, FORM], &mut trailer[..12]);
    Ok(length as u32)
}
