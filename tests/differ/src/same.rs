//! The same run on both cores (request C-16): a run of the 42 that meets nothing in which they differ is the 42X's run
//! too. The second implementation finds how far a drawn run goes without; the library's two runs of so many steps are
//! compared.

use crate::case::Case;
use crate::report::{word_at, Difference};
use crate::runs::{event, unless_same, Plays, Run};
use crate::until::{draw_stops, up_to};
use draw::Urn;
use linked::Library;
use second::registers::{dbcr, tcr};
use second::{spr, Core, Fault, Kind, Outcome, Profile, Taken, Word};
use std::collections::BTreeMap;
use std::fmt;

/// What the runs came to, so that a reader can see it.
#[derive(Default)]
pub struct Tally {
    runs: u64,
    /// Runs of no step.
    empty: u64,
    steps: u64,
    halted: u64,
    faults: u64,
    interrupts: u64,
    executed: BTreeMap<&'static str, u64>,
    /// Runs that were ended before a step, by what it meets.
    cut: BTreeMap<&'static str, u64>,
}

impl fmt::Display for Tally {
    fn fmt(&self, f: &mut fmt::Formatter) -> fmt::Result {
        let cut: u64 = self.cut.values().sum();
        writeln!(f, "{} runs compared, {} of them of no step", self.runs, self.empty)?;
        writeln!(f, "{} steps, {} faults and {} other interrupts", self.steps, self.faults, self.interrupts)?;
        writeln!(f, "{} of 87 instructions executed", self.executed.len())?;
        writeln!(f, "{} runs ended halted, {} when the budget was used", self.halted, self.runs - self.halted - cut)?;
        write!(f, "{cut} runs ended before a step that meets")?;
        for (place, (what, count)) in self.cut.iter().enumerate() {
            write!(f, "{} {what}: {count}", if place == 0 { "" } else { "," })?;
        }
        Ok(())
    }
}

/// The libraries of the 42 and of the 42X.
pub fn compare(libraries: &[Library; 2], urn: &mut Urn, tally: &mut Tally) -> Result<(), Difference> {
    let drawn = Case::draw_common(urn);
    let case = Case { budget: common_steps(&drawn, tally), ..drawn };
    tally.runs += 1;
    tally.empty += (case.budget == 0) as u64;
    let [of_42, of_42x] = libraries;
    same("run", &case, of_42.run, of_42x.run)?;
    same("run_reach", &case, of_42.run_reach, of_42x.run_reach)?;
    same("run_inside", &case, of_42.run_inside, of_42x.run_inside)?;
    let stops = draw_stops(Profile::Ppe42, &case, urn);
    same("run_until", &case, up_to(of_42.run_until, &stops), up_to(of_42x.run_until, &stops))
}

fn same(what: &str, case: &Case, of_42: impl Plays, of_42x: impl Plays) -> Result<(), Difference> {
    let expected = Run::of(of_42, case, &case.events, case.budget);
    let given = Run::of(of_42x, case, &case.events, case.budget);
    let what = format!("{what} of {} steps, expected as of the 42 and given as of the 42X", case.budget);
    if !expected.accepted() {
        return Err(Difference(format!("{what}: refused")));
    }
    unless_same(&given, &expected, &what)
}

/// How many steps of the 42's run meet nothing in which the cores differ.
fn common_steps(case: &Case, tally: &mut Tally) -> u32 {
    let mut memory = case.memory.clone();
    let accepted = second::accept(Profile::Ppe42, &case.state, &memory, &case.events, case.budget);
    let mut core = accepted.expect("a common start is one that both cores accept");
    let mut steps = 0;
    while steps < case.budget && core.halt == 0 {
        let word = word_at(&memory, core.iar);
        let outcome = core.step(Profile::Ppe42, &mut memory, event(case, steps));
        if let Some(what) = meets(outcome, word, &core) {
            *tally.cut.entry(what).or_default() += 1;
            return steps;
        }
        steps += 1;
        tally.count(outcome);
    }
    tally.halted += (core.halt != 0) as u64;
    steps
}

/// What the step met that need not be the same on the 42X. An mtspr leaves the register that it reads.
fn meets(outcome: Outcome, word: Option<Word>, after: &Core) -> Option<&'static str> {
    match (outcome, word) {
        (Outcome::Faulted(Fault::Program { trap: false, .. }, _), _) => Some("an illegal word"),
        (Outcome::Faulted(Fault::Program { trap: true, word }, _), _) if Word(word).tg() => Some("tw with TG"),
        (Outcome::Faulted(_, Taken::Promoted), _) => Some("a machine check"),
        (Outcome::Executed(Kind::Tw), Some(word)) if word.tg() => Some("tw with TG"),
        (Outcome::Executed(Kind::Mtspr), Some(word)) => {
            let only_42x = match word.spr() {
                spr::DBCR => dbcr::OF_42X,
                spr::TCR => tcr::OF_42X,
                _ => 0,
            };
            (after.gpr[word.rt()] & only_42x != 0).then_some("a one for a bit of the 42X")
        }
        _ => None,
    }
}

impl Tally {
    fn count(&mut self, outcome: Outcome) {
        self.steps += 1;
        match outcome {
            Outcome::Faulted(..) => self.faults += 1,
            Outcome::Interrupted(_) => self.interrupts += 1,
            Outcome::Executed(kind) => *self.executed.entry(kind.mnemonic()).or_default() += 1,
            _ => {}
        }
    }
}
