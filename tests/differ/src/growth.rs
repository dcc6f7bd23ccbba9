//! Demand 3 on the library alone: more memory or a longer run never alters what was already found.

use crate::case::{Case, MOST};
use crate::report::Difference;
use crate::runs::{unless_same, Run};
use crate::tally::Tally;
use draw::Urn;
use linked::{Library, Play};

/// `first` is the library's own run, and its own word on its reach decides whether anything is asked. That word is the
/// reference's as well, or `compare_run` has failed: no core is spared by telling a reach.
pub fn check(library: &Library, case: &Case, first: &Run, urn: &mut Urn, tally: &mut Tally) -> Result<(), Difference> {
    let extra = 32 * urn.below(9) as usize;
    let longer = case.budget.saturating_add(urn.below(60)).min(MOST);
    if !first.accepted() || first.reached() || case.memory.len() + extra > MOST as usize {
        return Ok(());
    }
    tally.grown += 1;
    let mut memory = case.memory.clone();
    memory.resize(case.memory.len() + extra, 0);
    urn.fill(&mut memory[case.memory.len()..]);
    let larger = Case { memory, ..case.clone() };
    grow(library.run, &larger, first, longer)?;
    grow(library.run_reach, &larger, first, longer)
}

/// The same steps do not reach past more memory either, so both functions answer them alike.
fn grow(play: Play, larger: &Case, first: &Run, longer: u32) -> Result<(), Difference> {
    let as_many = Run::of(play, larger, &larger.events, first.steps());
    let mut expected = larger.memory.clone();
    expected[..first.memory.len()].copy_from_slice(&first.memory);
    let found = Run { memory: expected, ..first.clone() };
    unless_same(&as_many, &found, "as many steps with more memory")?;

    let longer_run = Run::of(play, larger, &larger.events, longer);
    let continued = if first.halted() { found } else { continued(as_many, play, larger, longer) };
    unless_same(&longer_run, &continued, "a longer run with more memory")
}

/// A run that did not reach, gone on with to `budget` steps in all.
fn continued(done: Run, play: Play, start: &Case, budget: u32) -> Run {
    let steps = done.steps();
    let rest = start.events.get(steps as usize..).unwrap_or(&[]);
    let here = Case { state: done.state, memory: done.memory, events: vec![], budget };
    let more = Run::of(play, &here, rest, budget - steps);
    Run { answer: done.answer + more.answer, ..more }
}

#[cfg(test)]
mod tests {
    use super::*;
    use linked::LINKED;
    use second::registers::WORDS;
    use second::Profile;

    const SPRG0: usize = 4 * 28;

    fn length_shows(state: &mut [u8], memory: &mut [u8], events: &[u8], budget: u32) -> u64 {
        let answer = second::run(Profile::Ppe42, state, memory, events, budget);
        state[SPRG0..SPRG0 + 4].copy_from_slice(&(memory.len() as u32).to_be_bytes());
        answer
    }

    fn budget_shows(state: &mut [u8], memory: &mut [u8], events: &[u8], budget: u32) -> u64 {
        let answer = second::run(Profile::Ppe42, state, memory, events, budget);
        state[SPRG0] ^= (budget > 7) as u8;
        answer
    }

    fn end_is_cleared(state: &mut [u8], memory: &mut [u8], events: &[u8], budget: u32) -> u64 {
        if memory.len() > 32 {
            memory[memory.len() - 1] = 0;
        }
        second::run(Profile::Ppe42, state, memory, events, budget)
    }

    const BRANCH_TO_ITSELF: u32 = 0x4800_0000;
    const LOAD_AT_32: u32 = 0x8060_0020;

    /// Whether the check fails for a run of five steps in 32 bytes that start with the word.
    fn caught(library: Library, word: u32) -> bool {
        let mut memory = vec![0; 32];
        memory[..4].copy_from_slice(&word.to_be_bytes());
        let case = Case { state: vec![0; 4 * WORDS], memory, events: vec![], budget: 5 };
        let first = Run::of(library.run_reach, &case, &case.events, case.budget);
        let mut urn = Urn::new(1);
        (0..100).any(|_| check(&library, &case, &first, &mut urn, &mut Tally::of(Profile::Ppe42)).is_err())
    }

    #[test]
    fn a_core_that_shows_its_memory_or_budget_is_caught() {
        for flawed in [length_shows, budget_shows, end_is_cleared] {
            assert!(caught(Library { run: flawed, run_reach: flawed, ..LINKED }, BRANCH_TO_ITSELF));
        }
        assert!(!caught(LINKED, BRANCH_TO_ITSELF));
    }

    #[test]
    fn a_core_that_hides_its_reach_is_caught() {
        assert!(caught(Library { run_reach: LINKED.run, ..LINKED }, LOAD_AT_32));
        assert!(!caught(LINKED, LOAD_AT_32));
    }
}
