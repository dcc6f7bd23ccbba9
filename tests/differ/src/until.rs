//! Runs up to their first stop: against the second implementation, and on the library alone against its own steps and run.

use crate::case::{Case, IAR, IVPR, MOST, VECTORS};
use crate::report::{word_at, Difference};
use crate::runs::{compare_play, event, ours, unless_same, Plays, Run};
use crate::tally::Tally;
use crate::Subject;
use draw::Urn;
use linked::{Library, Until, REACHED};
use second::Profile;

/// `own` is what `compare_run` has seen of the library's run to the end.
pub fn compare(subject: &Subject, case: &Case, own: &Run, urn: &mut Urn, tally: &mut Tally) -> Result<(), Difference> {
    let Subject { profile, library } = *subject;
    let stops = &draw_stops(profile, case, urn)[..];
    let ours = move |state: &mut [u8], memory: &mut [u8], events: &[u8], budget| {
        second::run_until(profile, state, memory, events, stops, budget)
    };
    let expected = Run::of(ours, case, &case.events, case.budget);
    let given = compare_play(subject, "run_until", case, up_to(library.run_until, stops), ours, &expected)?;
    tally.until(given.steps() > 0 && is_stop(stops, word(&given.state, IAR)));
    if !given.accepted() {
        return Ok(());
    }
    check(&library, case, stops, &given, &Run { answer: own.answer & !REACHED, ..own.clone() })
}

/// A run with these stops, played as one without is.
pub fn up_to(play: Until, stops: &[u8]) -> impl Plays + '_ {
    move |state: &mut [u8], memory: &mut [u8], events: &[u8], budget| play(state, memory, events, stops, budget)
}

fn is_stop(stops: &[u8], address: u32) -> bool {
    stops.get(address as usize / 4).is_some_and(|stop| *stop != 0)
}

/// Of a state that may be cut short.
fn word(state: &[u8], place: usize) -> u32 {
    word_at(state, 4 * place as u32).map_or(0, |word| word.0)
}

/// What was given is the library's run of as many steps, ends where it should, and gone on with is its whole run.
fn check(library: &Library, case: &Case, stops: &[u8], given: &Run, whole: &Run) -> Result<(), Difference> {
    let as_many = Run::of(library.run, case, &case.events, given.steps());
    unless_same(given, &as_many, "run_until, and run of as many steps")?;
    ends_first(library, case, stops, given)?;
    unless_same(&gone_on(library, case, stops, given), whole, "run_until gone on with, and the whole run")
}

/// None of the library's own steps but the last leaves IAR at a stop, and that one does if nothing else ends the run.
fn ends_first(library: &Library, case: &Case, stops: &[u8], given: &Run) -> Result<(), Difference> {
    let (mut state, mut memory) = (case.state.clone(), case.memory.clone());
    for step in 0..given.steps() {
        if step > 0 && is_stop(stops, word(&state, IAR)) {
            return Err(Difference(format!("run_until of {} steps, and {step} steps end at a stop", given.steps())));
        }
        (library.step)(&mut state, &mut memory, event(case, step));
    }
    if given.steps() < case.budget && !given.halted() && !is_stop(stops, word(&state, IAR)) {
        return Err(Difference(format!("run_until of {} steps, which end at no stop", given.steps())));
    }
    Ok(())
}

/// From each stop with the rest of the list, until the budget is used or the core halts.
fn gone_on(library: &Library, case: &Case, stops: &[u8], first: &Run) -> Run {
    let mut run = first.clone();
    while run.steps() < case.budget && !run.halted() {
        let rest = case.events.get(run.steps() as usize..).unwrap_or(&[]);
        let left = case.budget - run.steps();
        let answer = (library.run_until)(&mut run.state, &mut run.memory, rest, stops, left);
        run.answer += answer;
        if answer as u32 == 0 {
            break;
        }
    }
    run
}

/// A byte for each word: mostly few stops, about where the run comes by, now and then one at every word or none.
pub fn draw_stops(profile: Profile, case: &Case, urn: &mut Urn) -> Vec<u8> {
    let mut stops = vec![0; draw_length(case, urn)];
    match urn.below(10) {
        0 => {}
        1 => stops.fill_with(|| draw_stop(urn)),
        _ => {
            for _ in 0..=urn.below(4) {
                let address = draw_address(profile, case, urn);
                if let Some(stop) = stops.get_mut(address as usize / 4) {
                    *stop = draw_stop(urn);
                }
            }
        }
    }
    stops
}

/// As many as memory has words, fewer or more; now and then more than anything else may have.
fn draw_length(case: &Case, urn: &mut Urn) -> usize {
    let words = case.memory.len() as u32 / 4;
    let length = match urn.below(200) {
        0 => MOST + 1 + urn.below(100),
        1..=10 => 0,
        11..=60 => urn.below(words + 1),
        61..=110 => words + urn.below(200),
        _ => words,
    };
    length as usize
}

/// One bit or any.
fn draw_stop(urn: &mut Urn) -> u8 {
    if urn.percent(50) {
        1 << urn.below(8)
    } else {
        1 + urn.below(255) as u8
    }
}

/// The first steps of a run, to whose ends stops are drawn.
const FIRST: u32 = 100;

/// Where the run comes by, else about its start, at a vector or somewhere in memory.
fn draw_address(profile: Profile, case: &Case, urn: &mut Urn) -> u32 {
    match urn.below(8) {
        0..=3 => {
            let steps = urn.below(case.budget.min(FIRST) + 1);
            word(&Run::of(ours(profile, second::run), case, &case.events, steps).state, IAR)
        }
        4 => word(&case.state, IAR).wrapping_add(4 * urn.below(16)).wrapping_sub(16),
        5..=6 => word(&case.state, IVPR) | (32 * urn.below(VECTORS / 32)),
        _ => urn.below(case.memory.len() as u32),
    }
}

#[cfg(test)]
mod tests {
    use super::*;
    use linked::LINKED;
    use second::registers::WORDS;

    /// Two additions and a branch back to them; there is a stop at the branch.
    const LOOP: [u32; 3] = [0x3863_0001, 0x3863_0001, 0x4BFF_FFF8];
    const STOPS: [u8; 3] = [0, 0, 0x80];

    fn caught(library: Library) -> bool {
        let mut memory = LOOP.map(u32::to_be_bytes).concat();
        memory.resize(32, 0);
        let case = Case { state: vec![0; 4 * WORDS], memory, events: vec![], budget: 9 };
        let given = Run::of(up_to(library.run_until, &STOPS), &case, &[], case.budget);
        let whole = Run::of(library.run, &case, &[], case.budget);
        check(&library, &case, &STOPS, &given, &whole).is_err()
    }

    fn with(stops: &[u8], state: &mut [u8], memory: &mut [u8], events: &[u8], budget: u32) -> u64 {
        second::run_until(Profile::Ppe42, state, memory, events, stops, budget)
    }

    const FLAWS: [(&str, Until); 5] = [
        ("no stop is seen", |state, memory, events, _, budget| with(&[], state, memory, events, budget)),
        ("it ends a word before", |state, memory, events, _, budget| with(&[0, 1], state, memory, events, budget)),
        ("the last step is not counted", |state, memory, events, stops, budget| {
            with(stops, state, memory, events, budget) - 1
        }),
        ("the last step is not taken", |state, memory, events, stops, budget| {
            let (mut played, mut lent) = (state.to_vec(), memory.to_vec());
            let answer = with(stops, &mut played, &mut lent, events, budget);
            second::run(Profile::Ppe42, state, memory, events, answer as u32 - 1);
            answer
        }),
        ("a run that begins at a stop takes no step", |state, memory, events, stops, budget| {
            if is_stop(stops, word(state, IAR)) {
                return 0;
            }
            with(stops, state, memory, events, budget)
        }),
    ];

    #[test]
    fn a_library_is_held_against_itself() {
        assert!(!caught(LINKED));
        for (name, run_until) in FLAWS {
            assert!(caught(Library { run_until, ..LINKED }), "{name}");
        }
    }
}
