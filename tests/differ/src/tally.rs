//! What the cases reached, so that a reader can see it.

use crate::case::ASKS;
use crate::runs::Run;
use second::registers::tcr;
use second::{Asynchronous, Core, Fault, Kind, Outcome, Profile, Taken, Word};
use std::collections::BTreeMap;
use std::fmt;

/// Numbers of refusal, 0 for none.
const REFUSALS: usize = 9;

/// Things that can be told of a step.
const TOLD: usize = 13;

const DOUBLEWORDS: [Kind; 4] = [Kind::Lvd, Kind::Lvdu, Kind::Stvd, Kind::Stvdu];

pub struct Tally {
    profile: Profile,
    pub cases: u64,
    pub steps: u64,
    pub reached: u64,
    /// Runs that did so in some step.
    runs_reached: u64,
    /// Runs once more up to their first reach, and those of them that one ended.
    inside: u64,
    inside_reached: u64,
    /// Runs once more up to their first stop, and those of them that one ended.
    until: u64,
    until_stopped: u64,
    /// Runs once more of a long budget by the predecoding engine, their steps, and those of them that used it.
    long: u64,
    long_steps: u64,
    long_used: u64,
    /// Steps asked beforehand by what was told, and those of them that access data.
    told: [u64; TOLD],
    accesses: u64,
    /// Halfwords and words among these that are not aligned, served and outside.
    unaligned_served: u64,
    unaligned_outside: u64,
    asked_refused: [u64; REFUSALS],
    /// Steps without an event in which TCR enables nothing and DEC counts.
    quiet: u64,
    /// Steps that access a doubleword and fault.
    doublewords_faulted: u64,
    /// Steps of lsku and stsku that fault, by the place of the access, with those whose RA is one of r28 to r31; and
    /// those served, by the doublewords of their frames up to five and then all.
    frames_faulted: BTreeMap<(&'static str, &'static str), [u64; 2]>,
    frames_served: BTreeMap<(&'static str, u32), u64>,
    /// tw with TG, and of them those that only TG makes legal.
    marks: [u64; 2],
    /// Steps by TCR[DS].
    clocks: [u64; 4],
    /// Cases in which more memory and a longer run were tried.
    pub grown: u64,
    executed: BTreeMap<&'static str, u64>,
    waited: u64,
    interrupts: BTreeMap<&'static str, u64>,
    faults: BTreeMap<(&'static str, &'static str), u64>,
    watchdog_acted: u64,
    halts: [u64; 6],
    read: BTreeMap<u32, u64>,
    written: BTreeMap<u32, u64>,
    timer_settings: Vec<bool>,
    runs: [u64; REFUSALS],
    steps_refused: [u64; REFUSALS],
    captures_read: [u64; REFUSALS],
    captures_written: [u64; REFUSALS],
}

impl Tally {
    pub fn of(profile: Profile) -> Tally {
        Tally {
            profile,
            cases: 0,
            steps: 0,
            reached: 0,
            runs_reached: 0,
            inside: 0,
            inside_reached: 0,
            until: 0,
            until_stopped: 0,
            long: 0,
            long_steps: 0,
            long_used: 0,
            told: [0; TOLD],
            accesses: 0,
            unaligned_served: 0,
            unaligned_outside: 0,
            asked_refused: [0; REFUSALS],
            quiet: 0,
            doublewords_faulted: 0,
            frames_faulted: BTreeMap::new(),
            frames_served: BTreeMap::new(),
            marks: [0; 2],
            clocks: [0; 4],
            grown: 0,
            executed: Kind::ALL.iter().filter(|kind| profile.has(**kind)).map(|kind| (kind.mnemonic(), 0)).collect(),
            waited: 0,
            interrupts: BTreeMap::new(),
            faults: BTreeMap::new(),
            watchdog_acted: 0,
            halts: [0; 6],
            read: BTreeMap::new(),
            written: BTreeMap::new(),
            timer_settings: vec![false; 1 << tcr::defined(profile).count_ones()],
            runs: [0; REFUSALS],
            steps_refused: [0; REFUSALS],
            captures_read: [0; REFUSALS],
            captures_written: [0; REFUSALS],
        }
    }
}

impl Tally {
    /// Counts a step that started with this TCR and event, at this word if memory has one there, and left this core.
    pub fn step(&mut self, outcome: Outcome, tcr_before: u32, event: u8, word: Option<Word>, after: &Core) {
        self.steps += 1;
        self.reached += outcome.reached() as u64;
        self.quiet += (event == 0 && tcr_before & ASKS == 0) as u64;
        self.timer_settings[(tcr_before >> tcr::defined(self.profile).trailing_zeros()) as usize] = true;
        self.clocks[((tcr_before & tcr::DS) >> tcr::DS_SHIFT) as usize] += 1;
        match outcome {
            Outcome::AlreadyHalted => {}
            Outcome::WatchdogActed => self.watchdog_acted += 1,
            Outcome::Interrupted(cause) => *self.interrupts.entry(asynchronous(cause)).or_default() += 1,
            Outcome::Waited => self.waited += 1,
            Outcome::Executed(kind) => self.execute(kind, word),
            Outcome::Faulted(fault, taken) => {
                *self.faults.entry((synchronous(fault), how(taken))).or_default() += 1;
                self.doublewords_faulted += self.is_doubleword(word) as u64;
                self.fault_frame(fault, word, after);
            }
        }
    }

    /// RA is still what it was, so that the place of the access can be told.
    fn fault_frame(&mut self, fault: Fault, word: Option<Word>, after: &Core) {
        let Some((word, kind)) = word.and_then(|word| Some((word, word.kind(self.profile)?))) else {
            return;
        };
        if matches!(kind, Kind::Lsku | Kind::Stsku) {
            let counts = self.frames_faulted.entry((kind.mnemonic(), place(fault, kind, word, after))).or_default();
            counts[0] += 1;
            counts[1] += (word.ra() >= 28) as u64;
        }
    }

    fn is_doubleword(&self, word: Option<Word>) -> bool {
        word.and_then(|word| word.kind(self.profile)).is_some_and(|kind| DOUBLEWORDS.contains(&kind))
    }

    fn execute(&mut self, kind: Kind, word: Option<Word>) {
        *self.executed.entry(kind.mnemonic()).or_default() += 1;
        match (kind, word) {
            (Kind::Mfspr, Some(word)) => *self.read.entry(word.spr()).or_default() += 1,
            (Kind::Mtspr, Some(word)) => *self.written.entry(word.spr()).or_default() += 1,
            (Kind::Lsku | Kind::Stsku, Some(word)) => {
                let doublewords = (word.frame() as i32).unsigned_abs() / 8;
                *self.frames_served.entry((kind.mnemonic(), doublewords.min(6))).or_default() += 1;
            }
            (Kind::Tw, Some(word)) if word.tg() && self.profile.is_42x() => {
                self.marks[0] += 1;
                self.marks[1] += !second::legal(Profile::Ppe42, word.0) as u64;
            }
            _ => {}
        }
    }

    pub fn end(&mut self, core: &Core, reached: bool) {
        self.runs[0] += 1;
        self.runs_reached += reached as u64;
        self.halts[core.halt as usize] += 1;
    }

    pub fn refuse_run(&mut self, refusal: u32) {
        self.runs[refusal as usize] += 1;
    }

    pub fn inside(&mut self, reached: bool) {
        self.inside += 1;
        self.inside_reached += reached as u64;
    }

    pub fn until(&mut self, stopped: bool) {
        self.until += 1;
        self.until_stopped += stopped as u64;
    }

    pub fn long(&mut self, run: &Run) {
        self.long += 1;
        self.long_steps += run.steps() as u64;
        self.long_used += (run.accepted() && !run.halted()) as u64;
    }

    /// Counts the answers to a question about a step.
    pub fn ask(&mut self, told: u64, access: u64) {
        self.asked_refused[(told >> 32) as usize] += 1;
        if told >> 32 == 0 {
            self.told[told as usize] += 1;
            self.accesses += (access != 0) as u64;
            self.unaligned_served += (told == 1 && unaligned(access)) as u64;
            self.unaligned_outside += (told == 8 && unaligned(access)) as u64;
        }
    }

    pub fn answer_step(&mut self, answer: u64) {
        self.steps_refused[(answer >> 32) as usize] += 1;
    }

    pub fn answer_read(&mut self, answer: u64) {
        self.captures_read[(answer >> 32) as usize] += 1;
    }

    pub fn answer_write(&mut self, answer: u64) {
        self.captures_written[(answer >> 32) as usize] += 1;
    }
}

/// Whether what is told of an access is a halfword or word that is not aligned.
fn unaligned(access: u64) -> bool {
    let (bytes, address) = ((access >> 32) as u32 & 63, access as u32);
    matches!(bytes, 2 | 4) && !address.is_multiple_of(bytes)
}

/// Which access of a frame the fault is at.
fn place(fault: Fault, kind: Kind, word: Word, core: &Core) -> &'static str {
    let stack = core.gpr[word.ra()];
    let ea = stack.wrapping_add(word.frame());
    let upper = if kind == Kind::Lsku { ea } else { stack };
    match fault {
        Fault::Alignment { .. } => "stack pointer",
        Fault::DataStorage { address, .. } if address == upper.wrapping_add(4) => "LR",
        Fault::DataStorage { address, .. } if kind == Kind::Stsku && address == ea => "back pointer",
        Fault::DataStorage { address, .. } if address == upper.wrapping_sub(8) => "r30 and r31",
        Fault::DataStorage { address, .. } if address == upper.wrapping_sub(16) => "r28 and r29",
        _ => "elsewhere",
    }
}

fn asynchronous(cause: Asynchronous) -> &'static str {
    match cause {
        Asynchronous::Watchdog => "watchdog timer",
        Asynchronous::External => "external",
        Asynchronous::FixedInterval => "fixed interval timer",
        Asynchronous::Decrementer => "decrementer",
    }
}

fn synchronous(fault: Fault) -> &'static str {
    match fault {
        Fault::InstructionStorage => "instruction storage",
        Fault::Program { trap: true, .. } => "program (trap)",
        Fault::Program { trap: false, .. } => "program (illegal)",
        Fault::DataStorage { store: true, .. } => "data storage (store)",
        Fault::DataStorage { store: false, .. } => "data storage (load)",
        Fault::Alignment { store: true, .. } => "alignment (store)",
        Fault::Alignment { store: false, .. } => "alignment (load)",
    }
}

fn how(taken: Taken) -> &'static str {
    match taken {
        Taken::Plainly => "taken",
        Taken::Promoted => "promoted",
        Taken::Halting => "halting",
    }
}

impl fmt::Display for Tally {
    fn fmt(&self, f: &mut fmt::Formatter) -> fmt::Result {
        writeln!(f, "{} cases, {} steps, {} of them past memory", self.cases, self.steps, self.reached)?;
        writeln!(f, "{} runs reached past their memory", self.runs_reached)?;
        writeln!(f, "{} runs again up to their first reach, which ended {}", self.inside, self.inside_reached)?;
        writeln!(f, "{} runs again up to their first stop, which ended {}", self.until, self.until_stopped)?;
        let (long, steps, used) = (self.long, self.long_steps, self.long_used);
        writeln!(f, "{long} runs again with a long budget by the predecoding engine, {steps} steps, {used} used it")?;
        let asked: u64 = self.told.iter().sum();
        writeln!(f, "{asked} steps asked beforehand what they do, {} of them access data", self.accesses)?;
        let (served, outside) = (self.unaligned_served, self.unaligned_outside);
        writeln!(f, "{served} unaligned accesses served, {outside} outside, all inside their groups of eight bytes")?;
        writeln!(f, "{} steps without an event or anything that TCR asks for", self.quiet)?;
        let served: u64 = DOUBLEWORDS.iter().map(|kind| self.executed[kind.mnemonic()]).sum();
        let doublewords = served + self.doublewords_faulted;
        writeln!(f, "{doublewords} steps that access a doubleword, {served} of them served")?;
        if self.profile.is_42x() {
            self.write_42x(f)?;
        }
        writeln!(f, "{} cases run again with more memory and a longer run", self.grown)?;
        writeln!(f, "executed:")?;
        for row in self.executed.iter().collect::<Vec<_>>().chunks(6) {
            let row: Vec<_> = row.iter().map(|(mnemonic, count)| format!("{mnemonic:7} {count:9}")).collect();
            writeln!(f, "  {}", row.join("  "))?;
        }
        writeln!(f, "interrupts:")?;
        for (name, count) in &self.interrupts {
            writeln!(f, "  {name:20}           {count:9}")?;
        }
        for ((name, how), count) in &self.faults {
            writeln!(f, "  {name:20} {how:8}  {count:9}")?;
        }
        writeln!(f, "waited {}, watchdog acted {}", self.waited, self.watchdog_acted)?;
        writeln!(f, "runs by halt code at their end: {}", list(&self.halts))?;
        writeln!(f, "SPRs read: {}", numbered(&self.read))?;
        writeln!(f, "SPRs written: {}", numbered(&self.written))?;
        let settings = self.timer_settings.iter().filter(|seen| **seen).count();
        writeln!(f, "TCR settings at a step's start: {settings} of {}", self.timer_settings.len())?;
        writeln!(f, "runs by refusal, 0 for none: {}", list(&self.runs))?;
        writeln!(f, "steps by refusal: {}", list(&self.steps_refused))?;
        writeln!(f, "steps asked by what was told: {}", list(&self.told))?;
        writeln!(f, "steps asked by refusal: {}", list(&self.asked_refused))?;
        writeln!(f, "captures read by refusal: {}", list(&self.captures_read))?;
        write!(f, "captures written by refusal: {}", list(&self.captures_written))
    }
}

impl Tally {
    /// What the 42X has besides.
    fn write_42x(&self, f: &mut fmt::Formatter) -> fmt::Result {
        for ((mnemonic, doublewords), count) in &self.frames_served {
            let more = if *doublewords > 5 { " or more" } else { "" };
            writeln!(f, "{count} frames of {doublewords}{more} doublewords served, {mnemonic}")?;
        }
        for ((mnemonic, place), [count, in_pairs]) in &self.frames_faulted {
            writeln!(f, "{count} faults of {mnemonic} at {place}, {in_pairs} of them with RA in r28 to r31")?;
        }
        writeln!(f, "{} tw with TG, {} of them illegal on a 42", self.marks[0], self.marks[1])?;
        writeln!(f, "steps by TCR[DS]: {}", list(&self.clocks))
    }
}

fn list(counts: &[u64]) -> String {
    let counts: Vec<_> = counts.iter().enumerate().filter(|(_, count)| **count > 0).collect();
    counts.iter().map(|(number, count)| format!("{number}: {count}")).collect::<Vec<_>>().join(", ")
}

fn numbered(counts: &BTreeMap<u32, u64>) -> String {
    counts.iter().map(|(number, count)| format!("{number}: {count}")).collect::<Vec<_>>().join(", ")
}
