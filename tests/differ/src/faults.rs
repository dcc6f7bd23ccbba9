//! Demand 1 on the library alone: an instruction that faults changes no memory and no register but those that its
//! interrupt sets. lsku and stsku may have begun: of lsku r28 to r31 may have been loaded, but RA, and of stsku its frame
//! stored.

use crate::case::Case;
use crate::report::{word_at, Difference};
use crate::runs::Run;
use linked::Library;
use second::registers::GPRS;
use second::{Kind, Profile, Word};

/// What a fault or the step's event may change, by its place in a state record.
const CHANGED: [usize; 9] = [DEC, EDR, ISR, MSR, SRR0, SRR1, TSR, IAR, HALT];
const DEC: usize = 20;
const EDR: usize = 21;
const ISR: usize = 22;
const MSR: usize = 25;
const SRR0: usize = 29;
const SRR1: usize = 30;
const TSR: usize = 32;
const IAR: usize = 34;
const HALT: usize = 35;

/// What `ppe42_tell` answers for faults, all but instruction storage, which has no word.
const FAULTS: [u64; 4] = [8, 10, 11, 12];

/// `after` is what the library's step from the case with this event left.
pub fn check(library: &Library, case: &Case, after: &Run, event: u8) -> Result<(), Difference> {
    let (mut state, mut memory) = (case.state.clone(), case.memory.clone());
    if !FAULTS.contains(&(library.tell)(&mut state, &mut memory, event)) {
        return Ok(());
    }
    let access = (library.access)(&mut state, &mut memory, event);
    let word = case.state[4 * IAR..].first_chunk().and_then(|iar| word_at(&case.memory, u32::from_be_bytes(*iar)));
    let frame = word.filter(|word| (library.legal)(word.0) == 1).and_then(frame_of);
    let changed = changed(case.state.chunks(4), after.state.chunks(4));
    if let Some(place) = changed.into_iter().find(|place| !CHANGED.contains(place) && !may_be_loaded(*place, frame)) {
        return Err(Difference(format!("a fault changed word {place} of the state")));
    }
    let stores = matches!(frame, Some((Kind::Stsku, _)));
    let changed = self::changed(case.memory.iter(), after.memory.iter());
    if let Some(at) = changed.into_iter().find(|at| !(stores && inside(access, *at as u32))) {
        return Err(Difference(format!("a fault changed byte {at:X} of memory")));
    }
    Ok(())
}

/// The places at which two records differ.
fn changed<T: PartialEq>(before: impl Iterator<Item = T>, after: impl Iterator<Item = T>) -> Vec<usize> {
    let pairs = before.zip(after).enumerate();
    pairs.filter(|(_, (before, after))| before != after).map(|(place, _)| place).collect()
}

/// Whether the place is that of a register which lsku may have loaded before its fault.
fn may_be_loaded(place: usize, frame: Option<(Kind, usize)>) -> bool {
    match (frame, GPRS.get(place)) {
        (Some((Kind::Lsku, ra)), Some(number)) => *number >= 28 && *number != ra,
        _ => false,
    }
}

/// Whether the word loads or stores a frame, and its RA. On a 42 no such word is legal.
fn frame_of(word: Word) -> Option<(Kind, usize)> {
    let kind = word.kind(Profile::Ppe42x)?;
    matches!(kind, Kind::Lsku | Kind::Stsku).then_some((kind, word.ra()))
}

/// Whether the address is in the access that is told so, which may go on from FFFFFFFF at 0.
fn inside(access: u64, address: u32) -> bool {
    address.wrapping_sub(access as u32) < (access >> 32) as u32 & 0x7FFF_FFFF
}

#[cfg(test)]
mod tests {
    use super::*;
    use crate::case::bytes;
    use linked::LINKED_42X;
    use second::registers::WORDS;

    const R1: usize = 1;
    const R3: usize = 3;
    const R28: usize = 12;
    const R31: usize = 15;

    const LWZ_AT_M: u32 = 0x8060_0040;
    const LSKU_24: u32 = 0xE821_001B;
    const STSKU_24: u32 = 0xF821_FFEB;

    /// A word at 0 of 64 bytes, with this stack pointer.
    fn case(word: u32, stack: u32) -> Case {
        let mut state = [0; WORDS];
        state[R1] = stack;
        let mut memory = vec![0xA5; 64];
        memory[..4].copy_from_slice(&word.to_be_bytes());
        Case { state: bytes(&state), memory, events: vec![], budget: 1 }
    }

    /// Whether the library's own step passes once these bytes of state and memory are changed as well.
    fn passes(case: &Case, places: &[usize], addresses: &[usize]) -> bool {
        let mut after = Run::of(LINKED_42X.run, case, &[], 1);
        places.iter().for_each(|place| after.state[4 * place] ^= 0x80);
        addresses.iter().for_each(|at| after.memory[*at] ^= 0x80);
        check(&LINKED_42X, case, &after, 0).is_ok()
    }

    #[test]
    fn a_load_changes_nothing() {
        let load = case(LWZ_AT_M, 0);
        assert!(passes(&load, &[], &[]) && passes(&load, &CHANGED, &[]));
        assert!(!passes(&load, &[R3], &[]) && !passes(&load, &[R28], &[]) && !passes(&load, &[], &[63]));
    }

    /// LR of the frame at 40 is just outside.
    #[test]
    fn lsku_may_have_loaded_its_pairs() {
        let pop = case(LSKU_24, 40);
        assert!(passes(&pop, &[], &[]) && passes(&pop, &[R28, R31], &[]));
        assert!(!passes(&pop, &[R1], &[]) && !passes(&pop, &[R3], &[]) && !passes(&pop, &[], &[40]));
    }

    /// The frame begins 8 bytes before 0 and ends with the header above.
    #[test]
    fn stsku_may_have_stored_in_its_frame() {
        let push = case(STSKU_24, 16);
        assert!(passes(&push, &[], &[]) && passes(&push, &[], &[0, 23]));
        assert!(!passes(&push, &[], &[24]) && !passes(&push, &[R28], &[]) && !passes(&push, &[R1], &[]));
    }
}
