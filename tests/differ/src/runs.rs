//! Runs and single steps, every byte of state, memory and answer.

use crate::case::{bytes, Case};
use crate::faults;
use crate::program::LEAST;
use crate::report::{answers, before, buffers, states, word_at, Difference};
use crate::tally::Tally;
use crate::Subject;
use draw::Urn;
use linked::REACHED;
use second::Profile;

/// What a run answered and what it left.
#[derive(Clone, PartialEq)]
pub struct Run {
    pub answer: u64,
    pub state: Vec<u8>,
    pub memory: Vec<u8>,
}

impl Run {
    pub fn of(play: impl Plays, start: &Case, events: &[u8], budget: u32) -> Run {
        let (mut state, mut memory) = (start.state.clone(), start.memory.clone());
        let answer = play(&mut state, &mut memory, events, budget);
        Run { answer, state, memory }
    }

    pub fn steps(&self) -> u32 {
        self.answer as u32
    }

    pub fn accepted(&self) -> bool {
        (self.answer & !REACHED) >> 32 == 0
    }

    pub fn reached(&self) -> bool {
        self.answer & REACHED != 0
    }

    /// Whether an accepted run ended halted: the halt code is the last byte of its state.
    pub fn halted(&self) -> bool {
        self.state.last() != Some(&0)
    }

    /// The lines that tell how this run is another than expected.
    pub fn departures(&self, expected: &Run) -> Vec<String> {
        let states = states(&expected.state, &self.state);
        [answers(expected.answer, self.answer), states, buffers("memory", &expected.memory, &self.memory)].concat()
    }
}

/// A function that plays a run, as `linked::Play` is.
pub trait Plays: Fn(&mut [u8], &mut [u8], &[u8], u32) -> u64 + Copy {}

impl<T: Fn(&mut [u8], &mut [u8], &[u8], u32) -> u64 + Copy> Plays for T {}

/// A run of the second implementation.
pub type Ours = fn(Profile, &mut [u8], &mut [u8], &[u8], u32) -> u64;

pub fn ours(profile: Profile, play: Ours) -> impl Plays {
    move |state: &mut [u8], memory: &mut [u8], events: &[u8], budget| play(profile, state, memory, events, budget)
}

/// The case step by step, each step counted, with the reach in the answer.
pub fn refer(profile: Profile, case: &Case, tally: &mut Tally) -> Run {
    let mut memory = case.memory.clone();
    let mut core = match second::accept(profile, &case.state, &memory, &case.events, case.budget) {
        Ok(core) => core,
        Err(refusal) => {
            tally.refuse_run(refusal);
            return Run { answer: (refusal as u64) << 32, state: case.state.clone(), memory };
        }
    };
    let mut steps = 0;
    let mut reached = false;
    while steps < case.budget && core.halt == 0 {
        let (tcr, event, word) = (core.tcr, event(case, steps), word_at(&memory, core.iar));
        let outcome = core.step(profile, &mut memory, event);
        tally.step(outcome, tcr, event, word, &core);
        reached |= outcome.reached();
        steps += 1;
    }
    tally.end(&core, reached);
    let answer = steps as u64 | if reached { REACHED } else { 0 };
    Run { answer, state: bytes(&core.to_words()), memory }
}

pub fn event(case: &Case, step: u32) -> u8 {
    case.events.get(step as usize).copied().unwrap_or(0)
}

/// By the functions of both engines that run to the end; the library's own run with its reach, once it is seen to be the
/// reference's.
pub fn compare_run(subject: &Subject, case: &Case, reference: &Run) -> Result<Run, Difference> {
    let silent = Run { answer: reference.answer & !REACHED, ..reference.clone() };
    let Subject { profile, library } = subject;
    let [run, run_reach] = [second::run, second::run_reach].map(|play| ours(*profile, play));
    compare_play(subject, "run", case, library.run, run, &silent)?;
    compare_play(subject, "run_predecoded", case, library.run_predecoded, run, &silent)?;
    compare_play(subject, "run_predecoded_reach", case, library.run_predecoded_reach, run_reach, reference)?;
    compare_play(subject, "run_reach", case, library.run_reach, run_reach, reference)
}

/// One case in so many, for as many steps as the engine wants that keeps decoded words.
const LONG: u32 = 50;

pub fn compare_long(subject: &Subject, case: &Case, urn: &mut Urn, tally: &mut Tally) -> Result<(), Difference> {
    if urn.below(LONG) != 0 || case.budget > LEAST {
        return Ok(());
    }
    let case = Case { budget: LEAST, ..case.clone() };
    let Subject { profile, library } = subject;
    let [run, run_reach] = [second::run, second::run_reach].map(|play| ours(*profile, play));
    let expected = Run::of(run_reach, &case, &case.events, case.budget);
    let silent = Run { answer: expected.answer & !REACHED, ..expected.clone() };
    tally.long(&expected);
    compare_play(subject, "run_predecoded", &case, library.run_predecoded, run, &silent)?;
    let telling = library.run_predecoded_reach;
    compare_play(subject, "run_predecoded_reach", &case, telling, run_reach, &expected).map(|_| ())
}

/// Up to the first step that reaches. `own` is what `compare_run` has seen of the library's other two runs: this one is
/// the same where it tells no reach; else a run of a step less has not reached, and one of as many has.
pub fn compare_inside(subject: &Subject, case: &Case, own: &Run, tally: &mut Tally) -> Result<(), Difference> {
    let Subject { profile, library } = subject;
    let run_inside = ours(*profile, second::run_inside);
    let expected = Run::of(run_inside, case, &case.events, case.budget);
    let given = compare_play(subject, "run_inside", case, library.run_inside, run_inside, &expected)?;
    tally.inside(given.reached());
    if !given.reached() {
        return unless_same(&given, own, "run_inside that tells no reach, and the run");
    }
    let as_many = Run::of(library.run_reach, case, &case.events, given.steps());
    unless_same(&given, &as_many, "run_inside up to a reach, and run_reach of as many steps")?;
    if Run::of(library.run_reach, case, &case.events, given.steps() - 1).reached() {
        return Err(Difference(format!("run_inside of {} steps, and run_reach reached before", given.steps())));
    }
    Ok(())
}

pub fn unless_same(given: &Run, expected: &Run, what: &str) -> Result<(), Difference> {
    if given == expected {
        return Ok(());
    }
    Err(Difference::told(what, given.departures(expected)))
}

pub fn compare_play(
    subject: &Subject,
    what: &str,
    case: &Case,
    theirs: impl Plays,
    ours: impl Plays,
    expected: &Run,
) -> Result<Run, Difference> {
    let given = Run::of(theirs, case, &case.events, case.budget);
    if given == *expected {
        return Ok(given);
    }
    let place = if expected.accepted() { locate(subject.profile, case, theirs, ours) } else { "refused".into() };
    Err(Difference::told(&format!("{what} of {} steps: {place}", case.budget), given.departures(expected)))
}

/// The first step at which the library departs, as the second implementation comes to it.
fn locate(profile: Profile, case: &Case, theirs: impl Plays, ours: impl Plays) -> String {
    for step in 0..case.budget {
        let given = Run::of(theirs, case, &case.events, step + 1);
        let expected = Run::of(ours, case, &case.events, step + 1);
        if given != expected {
            let start = Run::of(ours, case, &case.events, step);
            let from = start_of(profile, &start.state, &start.memory, event(case, step));
            let departures = given.departures(&expected).join("; ");
            return format!("step {step}: {from}\n  after it: {departures}\n  at the end:");
        }
    }
    "each shorter run agrees".into()
}

/// What a step starts from.
pub fn start_of(profile: Profile, state: &[u8], memory: &[u8], event: u8) -> String {
    match second::accept(profile, state, memory, &[], 0) {
        Ok(core) => before(profile, &core, memory, event),
        Err(refusal) => format!("refused with {refusal}"),
    }
}

/// One step from the same start, and of the library's alone what a fault may change.
pub fn compare_step(subject: &Subject, case: &Case, urn: &mut Urn, tally: &mut Tally) -> Result<(), Difference> {
    let event = draw_event(case, urn);
    let profile = subject.profile;
    let expected = step_of(|state, memory, event| second::step(profile, state, memory, event), case, event);
    tally.answer_step(expected.answer);
    let given = step_of(subject.library.step, case, event);
    if given == expected {
        return faults::check(&subject.library, case, &given, event);
    }
    let start = start_of(profile, &case.state, &case.memory, event);
    Err(Difference::told(&format!("one step: {start}"), given.departures(&expected)))
}

/// That of the case's first step, now and then a bad one.
pub fn draw_event(case: &Case, urn: &mut Urn) -> u8 {
    if urn.percent(5) {
        urn.word() as u8
    } else {
        event(case, 0)
    }
}

fn step_of(step: impl Fn(&mut [u8], &mut [u8], u8) -> u64, start: &Case, event: u8) -> Run {
    let (mut state, mut memory) = (start.state.clone(), start.memory.clone());
    let answer = step(&mut state, &mut memory, event);
    Run { answer, state, memory }
}
