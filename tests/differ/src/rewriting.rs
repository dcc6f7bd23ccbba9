//! Firmware that rewrites its own code (request C-17): drawn programs by the functions of the engine that keeps decoded
//! words, against the second implementation, every byte of state, memory and answer.

use crate::case::{bytes, Case};
use crate::program::LEAST;
use crate::report::{word_at, Difference};
use crate::runs::{event, ours, start_of, Plays, Run};
use crate::Subject;
use draw::Urn;
use linked::REACHED;
use second::{Access, Fault, Kind, Outcome, Profile};
use std::collections::BTreeMap;
use std::fmt;

/// What the runs came to, so that a reader can see it.
#[derive(Default)]
pub struct Tally {
    runs: u64,
    steps: u64,
    halted: u64,
    reached: u64,
    /// Words that were executed, in all runs together and in the run that has most.
    words: u64,
    most: u64,
    /// Stores and clears in words that were executed before, by instruction.
    stores: BTreeMap<&'static str, u64>,
    /// Such words executed again, and those of them that were another word by then.
    again: u64,
    changed: u64,
    illegal: u64,
    interrupts: u64,
    /// Steps at one of the four words of its set that were executed last, if nothing was stored in it since.
    found: u64,
    /// Steps up to where so many others came that words are no longer kept.
    kept: u64,
}

impl fmt::Display for Tally {
    fn fmt(&self, f: &mut fmt::Formatter) -> fmt::Result {
        let (runs, steps, stores) = (self.runs, self.steps, self.stores.values().sum::<u64>());
        writeln!(
            f,
            "{runs} runs, {steps} steps, {} runs ended halted, {} reached past memory",
            self.halted, self.reached
        )?;
        writeln!(f, "{} words executed in a run, {} at most", self.words / runs.max(1), self.most)?;
        let rate = steps / stores.max(1);
        writeln!(f, "{stores} stores and clears in words that were executed before, one in {rate} steps")?;
        writeln!(f, "{} such words executed again, {} of them another word by then", self.again, self.changed)?;
        writeln!(f, "{} illegal words, {} asynchronous interrupts", self.illegal, self.interrupts)?;
        writeln!(f, "{} steps at one of the last four words of a set, not stored in since", self.found)?;
        writeln!(f, "{} steps before words are no longer kept", self.kept)?;
        let stores: Vec<_> = self.stores.iter().map(|(mnemonic, count)| format!("{mnemonic} {count}")).collect();
        write!(f, "stored by: {}", stores.join(", "))
    }
}

pub fn compare(subject: &Subject, urn: &mut Urn, tally: &mut Tally) -> Result<(), Difference> {
    let Subject { profile, library } = *subject;
    let case = Case::draw_rewriting(profile, urn);
    let reference = refer(profile, &case, tally);
    let silent = Run { answer: reference.answer & !REACHED, ..reference.clone() };
    same("run_predecoded", profile, &case, library.run_predecoded, ours(profile, second::run), &silent)?;
    let telling = ours(profile, second::run_reach);
    same("run_predecoded_reach", profile, &case, library.run_predecoded_reach, telling, &reference)
}

fn same(
    what: &str,
    profile: Profile,
    case: &Case,
    theirs: impl Plays,
    ours: impl Plays,
    expected: &Run,
) -> Result<(), Difference> {
    let given = Run::of(theirs, case, &case.events, case.budget);
    if given == *expected {
        return Ok(());
    }
    let place = locate(profile, case, theirs, ours);
    Err(Difference::told(&format!("{what} of {} steps: {place}", case.budget), given.departures(expected)))
}

/// Where the library departs: the least budget found by halving, with its last step. Budgets under `LEAST` keep no words.
fn locate(profile: Profile, case: &Case, theirs: impl Plays, ours: impl Plays) -> String {
    let of = |budget| [Run::of(theirs, case, &case.events, budget), Run::of(ours, case, &case.events, budget)];
    let departs = |budget| of(budget)[0] != of(budget)[1];
    if departs(LEAST) {
        return format!("in the first {LEAST} already; at the end:");
    }
    let (mut low, mut high) = (LEAST, case.budget);
    while high - low > 1 {
        let middle = low + (high - low) / 2;
        if departs(middle) {
            high = middle;
        } else {
            low = middle;
        }
    }
    let [given, expected] = of(high);
    let [_, start] = of(high - 1);
    let from = start_of(profile, &start.state, &start.memory, event(case, high - 1));
    let departures = given.departures(&expected).join("; ");
    format!("step {}: {from}\n  after it: {departures}\n  at the end:", high - 1)
}

/// The case step by step, with what was executed and stored counted.
fn refer(profile: Profile, case: &Case, tally: &mut Tally) -> Run {
    let mut memory = case.memory.clone();
    let accepted = second::accept(profile, &case.state, &memory, &case.events, case.budget);
    let mut core = accepted.expect("a program starts where a run is accepted");
    let mut code = Code::of(memory.len() / 4);
    let (mut steps, mut reached, mut kept) = (0, false, true);
    while steps < case.budget && core.halt == 0 {
        let (iar, event) = (core.iar, event(case, steps));
        let word = word_at(&memory, iar);
        let access = core.access(profile, &memory, event).filter(|access| access.writes);
        let outcome = core.step(profile, &mut memory, event);
        steps += 1;
        reached |= outcome.reached();
        match (outcome, word) {
            (Outcome::Executed(_) | Outcome::Faulted(..), Some(word)) => code.execute(iar, word.0, tally),
            (Outcome::Interrupted(_), _) => tally.interrupts += 1,
            _ => {}
        }
        match (outcome, access) {
            (Outcome::Executed(kind), Some(access)) if code.store(kind, access) => {
                *tally.stores.entry(kind.mnemonic()).or_default() += 1;
            }
            (Outcome::Faulted(Fault::Program { trap: false, .. }, _), _) => tally.illegal += 1,
            _ => {}
        }
        kept &= !reached && (code.missed <= MISSED || SHARE * code.missed <= steps);
        tally.kept += kept as u64;
    }
    tally.runs += 1;
    tally.steps += steps as u64;
    tally.halted += (core.halt != 0) as u64;
    tally.reached += reached as u64;
    tally.words += code.words();
    tally.most = tally.most.max(code.words());
    let answer = steps as u64 | if reached { REACHED } else { 0 };
    Run { answer, state: bytes(&core.to_words()), memory }
}

/// Words by set and way, and when they are no longer kept: so many and so great a share of the steps were not found.
const SETS: usize = 64;
const WAYS: usize = 4;
const MISSED: u32 = 256;
const SHARE: u32 = 16;

/// What a run has executed of its memory, word by word.
struct Code {
    /// The word as it was executed last, and whether something was stored in it since.
    executed: Vec<Option<u32>>,
    stored: Vec<bool>,
    /// Of each set the words that were executed last.
    last: Vec<Vec<usize>>,
    missed: u32,
}

impl Code {
    fn of(words: usize) -> Code {
        Code { executed: vec![None; words], stored: vec![false; words], last: vec![vec![]; SETS], missed: 0 }
    }

    fn words(&self) -> u64 {
        self.executed.iter().flatten().count() as u64
    }

    fn execute(&mut self, iar: u32, word: u32, tally: &mut Tally) {
        let place = iar as usize / 4;
        if self.stored[place] {
            tally.again += 1;
            tally.changed += (self.executed[place] != Some(word)) as u64;
        }
        self.executed[place] = Some(word);
        self.stored[place] = false;
        let last = &mut self.last[place % SETS];
        let found = last.iter().position(|kept| *kept == place);
        match found {
            Some(way) => {
                last.remove(way);
                tally.found += 1;
            }
            None => self.missed += 1,
        }
        last.push(place);
        if last.len() > WAYS {
            last.remove(0);
        }
    }

    /// Whether it landed in a word that was executed.
    fn store(&mut self, kind: Kind, access: Access) -> bool {
        let mut landed = false;
        for (address, bytes) in parts(kind, access) {
            for place in address as usize / 4..=(address + bytes - 1) as usize / 4 {
                self.last[place % SETS].retain(|kept| *kept != place);
                self.stored[place] = self.executed[place].is_some();
                landed |= self.stored[place];
            }
        }
        landed
    }
}

/// The bytes that an access stores: all of them, but of a frame its parts.
fn parts(kind: Kind, access: Access) -> Vec<(u32, u32)> {
    if kind != Kind::Stsku {
        return vec![(access.address, access.bytes)];
    }
    let frame = access.bytes - 8;
    let stack = access.address + frame;
    let pairs = [(stack - 8, 8), (stack.wrapping_sub(16), 8)];
    let stored = [(stack + 4, 4), (access.address, 4)];
    stored.into_iter().chain(pairs.into_iter().take((frame / 8 - 1).min(2) as usize)).collect()
}
