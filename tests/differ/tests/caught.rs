//! That the comparison can fail: each core below has one flaw, and each is caught.

use differ::{compare, Subject, Tally};
use draw::Urn;
use linked::{Library, Until, LINKED, LINKED_42X, REACHED};
use second::registers::{isr, msr, tcr, tsr, xer};
use second::Profile::{self, Ppe42, Ppe42x};
use second::{Access, Asynchronous, Core, Fault, Kind, Outcome, Taken, Word};
use std::cell::Cell;

const CASES: u64 = 50_000;

/// As the core that is set.
fn caught(library: &Library) -> bool {
    let subject = Subject { profile: PROFILE.get(), library: *library };
    let mut tally = Tally::of(subject.profile);
    (0..CASES).any(|case| compare(&subject, &mut Urn::of_case(7, case), &mut tally).is_err())
}

/// The linked library's functions of the core that is set.
fn linked() -> Library {
    Subject::linked(PROFILE.get()).library
}

/// Changes the core after a step, given how it was before and what the step came to.
type Flaw = fn(&Core, Outcome, &mut Core);

const FLAWS: [(&str, Flaw); 9] = [
    ("sraw's carry is wrong", |_, outcome, after| {
        if outcome == Outcome::Executed(Kind::Sraw) {
            after.xer ^= xer::CA;
        }
    }),
    ("extsh leaves 32768 positive", |_, outcome, after| {
        if outcome == Outcome::Executed(Kind::Extsh) {
            after.gpr.iter_mut().filter(|value| **value == 0xFFFF_8000).for_each(|value| *value = 0x8000);
        }
    }),
    ("CR0 has the SO from before nego.", |before, outcome, after| {
        if outcome == Outcome::Executed(Kind::Neg) && after.cr != before.cr && before.xer & xer::SO == 0 {
            after.cr &= !second::registers::cr::SO;
        }
    }),
    ("EP is not worked out in a wait", |before, outcome, after| {
        if outcome == Outcome::Waited {
            after.isr = after.isr & !isr::EP | before.isr & isr::EP;
        }
    }),
    ("promotion keeps ME", |_, outcome, after| {
        if matches!(outcome, Outcome::Faulted(_, Taken::Promoted)) {
            after.msr |= msr::ME;
        }
    }),
    ("a watchdog action keeps WRC", |before, outcome, after| {
        if outcome == Outcome::WatchdogActed {
            after.tcr |= before.tcr & tcr::WRC;
        }
    }),
    ("a trap halt moves on", |_, _, after| {
        if after.halt == 3 {
            after.iar = after.iar.wrapping_add(4);
        }
    }),
    ("EDR is the word's address, not the byte's", |_, outcome, after| {
        if matches!(outcome, Outcome::Faulted(Fault::DataStorage { .. }, _)) {
            after.edr &= !3;
        }
    }),
    ("wrteei leaves EE", |before, outcome, after| {
        if outcome == Outcome::Executed(Kind::Wrteei) {
            after.msr = before.msr;
        }
    }),
];

/// A step that tries a load or store: core and memory before it, its word, its address and how many bytes.
struct Tried {
    core: Core,
    memory: Vec<u8>,
    word: Word,
    at: usize,
    bytes: usize,
}

impl Tried {
    fn of(core: &Core, memory: &[u8], event: u8) -> Option<Tried> {
        let access = core.access(PROFILE.get(), memory, event).filter(|access| access.bytes <= 8)?;
        let word = Word(u32::from_be_bytes(*memory[core.iar as usize..].first_chunk()?));
        let (at, bytes) = (access.address as usize, access.bytes as usize);
        Some(Tried { core: core.clone(), memory: memory.to_vec(), word, at, bytes })
    }

    /// Where it would be if its address were taken down to a multiple of its size.
    fn aligned(&self) -> usize {
        self.at - self.at % self.bytes
    }

    fn pair(&self) -> [usize; 2] {
        [self.word.rt(), self.word.rt_low()]
    }
}

/// Changes core and memory after such a step, given what it came to.
type AccessFlaw = fn(&Tried, Outcome, &mut Core, &mut [u8]);

const UNALIGNED_FLAWS: [(&str, AccessFlaw); 3] = [
    ("an unaligned word is loaded from the aligned address below", |tried, outcome, after, _| {
        if outcome == Outcome::Executed(Kind::Lwz) {
            let bytes = tried.memory[tried.aligned()..].first_chunk().expect("memory is whole blocks");
            after.gpr[tried.word.rt()] = u32::from_be_bytes(*bytes);
        }
    }),
    ("an unaligned halfword is stored at the aligned address below", |tried, outcome, _, memory| {
        if outcome == Outcome::Executed(Kind::Sth) {
            let stored = memory[tried.at..][..2].to_vec();
            memory.copy_from_slice(&tried.memory);
            memory[tried.aligned()..][..2].copy_from_slice(&stored);
        }
    }),
    ("the part of a word up to the end of its group is stored", |tried, outcome, _, memory| {
        if tried.bytes == 4 && matches!(outcome, Outcome::Faulted(Fault::Alignment { store: true, .. }, _)) {
            let stored = tried.core.gpr[tried.word.rt()].to_be_bytes();
            let part = 8 - tried.at % 8;
            memory.iter_mut().skip(tried.at).zip(&stored[..part]).for_each(|(byte, stored)| *byte = *stored);
        }
    }),
];

const PAIR_FLAWS: [(&str, AccessFlaw); 7] = [
    ("31 is loaded without 0", |tried, outcome, after, _| {
        if matches!(outcome, Outcome::Executed(Kind::Lvd | Kind::Lvdu)) && tried.word.rt() == 31 {
            after.gpr[0] = tried.core.gpr[0];
        }
    }),
    ("31 is stored without 0", |tried, outcome, _, memory| {
        if matches!(outcome, Outcome::Executed(Kind::Stvd | Kind::Stvdu)) && tried.word.rt() == 31 {
            memory[tried.at + 4..][..4].fill(0);
        }
    }),
    ("the second word is stored over the first", |tried, outcome, _, memory| {
        if matches!(outcome, Outcome::Executed(Kind::Stvd | Kind::Stvdu)) {
            memory.copy_within(tried.at + 4..tried.at + 8, tried.at);
            memory[tried.at + 4..][..4].copy_from_slice(&tried.memory[tried.at + 4..][..4]);
        }
    }),
    ("a fault leaves its address in RA", |tried, outcome, after, _| {
        if matches!(outcome, Outcome::Faulted(..)) && matches!(tried.word.kind(Ppe42), Some(Kind::Lvdu | Kind::Stvdu)) {
            after.gpr[tried.word.ra()] = tried.at as u32;
        }
    }),
    ("half is stored before a fault", |tried, outcome, _, memory| {
        if tried.bytes == 8 && matches!(outcome, Outcome::Faulted(Fault::Alignment { store: true, .. }, _)) {
            let half = tried.core.gpr[tried.word.rt()].to_be_bytes();
            memory.iter_mut().skip(tried.at).zip(half).for_each(|(byte, stored)| *byte = stored);
        }
    }),
    ("lvd leaves a base in its pair", |tried, outcome, after, _| {
        if outcome == Outcome::Executed(Kind::Lvd) && tried.pair().contains(&tried.word.ra()) {
            after.gpr[tried.word.ra()] = tried.core.gpr[tried.word.ra()];
        }
    }),
    ("stvdu stores the new base in its pair", |tried, outcome, after, memory| {
        if outcome == Outcome::Executed(Kind::Stvdu) {
            let stored = tried.pair().map(|number| after.gpr[number].to_be_bytes());
            memory[tried.at..][..8].copy_from_slice(&stored.concat());
        }
    }),
];

/// What a run tells of its reach after a step: given what it told before, what the step came to, and whether IAR was
/// outside memory before the step and after it.
type Tell = fn(bool, Outcome, [bool; 2]) -> bool;

const RIGHTLY: Tell = |so_far, outcome, _| so_far || outcome.reached();

/// Wrong where a run goes on after its reach.
const LAST_STEP: Tell = |_, outcome, _| outcome.reached();

const WRONGLY: [(&str, Tell); 7] = [
    ("no run reaches", |_, _, _| false),
    ("every run reaches", |_, _, _| true),
    ("an alignment interrupt reaches", |so_far, outcome, _| {
        so_far || outcome.reached() || matches!(outcome, Outcome::Faulted(Fault::Alignment { .. }, _))
    }),
    ("a fetch does not reach", |so_far, outcome, _| {
        so_far || matches!(outcome, Outcome::Faulted(Fault::DataStorage { .. }, _))
    }),
    ("a step that halts does not reach", |so_far, outcome, _| {
        so_far || outcome.reached() && !matches!(outcome, Outcome::Faulted(_, Taken::Halting))
    }),
    ("a step outside reaches without a fetch", |so_far, outcome, [before, _]| so_far || outcome.reached() || before),
    ("a branch out of memory reaches", |so_far, outcome, [_, after]| so_far || outcome.reached() || after),
];

/// Whether the step is the last by these stops: given what it came to, and IAR before it and after it.
type Stopped = fn(&[u8], Outcome, [u32; 2]) -> bool;

const AT_A_STOP: Stopped = |stops, _, [_, after]| is_stop(stops, after);

fn is_stop(stops: &[u8], address: u32) -> bool {
    stops.get(address as usize / 4).is_some_and(|stop| *stop != 0)
}

const STOPPED_WRONGLY: [(&str, Stopped); 17] = [
    ("no stop is seen", |_, _, _| false),
    ("every word of the list is a stop", |stops, _, [_, after]| after as usize / 4 < stops.len()),
    ("every word past the list is a stop", |stops, _, [_, after]| stops.get(after as usize / 4) != Some(&0)),
    ("a stop is at the word before", |stops, _, [_, after]| is_stop(stops, after.wrapping_add(4))),
    ("a stop is at the word behind", |stops, _, [_, after]| is_stop(stops, after.wrapping_sub(4))),
    ("the list has a byte for each byte", |stops, _, [_, after]| {
        stops.get(after as usize).is_some_and(|stop| *stop != 0)
    }),
    ("1 alone is a stop", |stops, _, [_, after]| stops.get(after as usize / 4) == Some(&1)),
    ("the last bit alone is a stop", |stops, _, [_, after]| {
        stops.get(after as usize / 4).is_some_and(|stop| stop & 1 != 0)
    }),
    ("128 is no stop", |stops, _, [_, after]| is_stop(stops, after) && stops[after as usize / 4] != 128),
    ("stops beyond 64 words are not seen", |stops, _, [_, after]| after < 4 * 64 && is_stop(stops, after)),
    ("addresses begin again at 65536", |stops, _, [_, after]| is_stop(stops, after & 0xFFFF)),
    ("an interrupt comes to no stop", |stops, outcome, [_, after]| {
        is_stop(stops, after) && !matches!(outcome, Outcome::Interrupted(_))
    }),
    ("a fault comes to no stop", |stops, outcome, [_, after]| {
        is_stop(stops, after) && !matches!(outcome, Outcome::Faulted(..))
    }),
    ("a wait goes on at a stop", |stops, outcome, [_, after]| is_stop(stops, after) && outcome != Outcome::Waited),
    ("a branch to itself goes on at a stop", |stops, outcome, [before, after]| {
        is_stop(stops, after) && (before != after || outcome == Outcome::Waited)
    }),
    ("the step from a stop is the last", |stops, _, [before, _]| is_stop(stops, before)),
    ("the step from a stop is the last as well", |stops, _, iars| iars.into_iter().any(|iar| is_stop(stops, iar))),
];

thread_local! {
    static PROFILE: Cell<Profile> = const { Cell::new(Ppe42) };
    static FLAW: Cell<Flaw> = const { Cell::new(|_, _, _| ()) };
    static ACCESS_FLAW: Cell<AccessFlaw> = const { Cell::new(|_, _, _, _| ()) };
    static WORD_FLAW: Cell<Option<WordFlaw>> = const { Cell::new(None) };
    static PLAYED: Cell<Played> = const { Cell::new(|profile, _| profile) };
    static SEEN: Cell<Seen> = const { Cell::new(|_, event| event) };
    static TELL: Cell<Tell> = const { Cell::new(RIGHTLY) };
    static STOPPED: Cell<Stopped> = const { Cell::new(AT_A_STOP) };
}

/// A step's word, the core and memory before it, and what it came to.
struct Step<'a> {
    word: Word,
    before: &'a Core,
    memory: &'a [u8],
    outcome: Outcome,
}

impl Step<'_> {
    /// The stack pointer of a frame, and the EA.
    fn ends(&self) -> [u32; 2] {
        let stack = self.before.gpr[self.word.ra()];
        [stack, stack.wrapping_add(self.word.frame())]
    }

    /// Whether it is this instruction and faults in an access that memory does not serve, and the address of that.
    fn outside(&self, kind: Kind) -> Option<u32> {
        match self.outcome {
            Outcome::Faulted(Fault::DataStorage { address, .. }, _) if self.word.kind(Ppe42x) == Some(kind) => {
                Some(address)
            }
            _ => None,
        }
    }

    fn executed(&self, kind: Kind) -> bool {
        self.outcome == Outcome::Executed(kind)
    }

    /// The word of memory before the step there, if there is one.
    fn load(&self, address: u32) -> Option<u32> {
        Some(u32::from_be_bytes(*self.memory.get(address as usize..)?.first_chunk()?))
    }
}

fn store(memory: &mut [u8], address: u32, value: u32) {
    if let Some(bytes) = memory.get_mut(address as usize..).and_then(|rest| rest.first_chunk_mut()) {
        *bytes = value.to_be_bytes();
    }
}

/// Changes core and memory after a step.
type WordFlaw = fn(&Step, &mut Core, &mut [u8]);

const FRAME_FLAWS: [(&str, WordFlaw); 12] = [
    ("lsku writes RA before LR is read", |step, after, _| {
        let [_, ea] = step.ends();
        if step.outside(Kind::Lsku) == Some(ea.wrapping_add(4)) {
            after.gpr[step.word.ra()] = ea;
        }
    }),
    ("lsku loads LR first", |step, after, _| {
        let link = step.ends()[1].wrapping_add(4);
        if step.outside(Kind::Lsku).is_some_and(|address| address != link) {
            after.lr = step.load(link).unwrap_or(after.lr);
        }
    }),
    ("lsku loads RA from its own pair", |step, after, _| {
        let ([_, ea], ra) = (step.ends(), step.word.ra());
        let loaded = match (step.outside(Kind::Lsku), ra) {
            (Some(address), 30 | 31) => address != ea.wrapping_sub(8) && step.word.dd() > 1,
            (Some(address), 28 | 29) => address == ea.wrapping_add(4) && step.word.dd() > 2,
            _ => false,
        };
        if loaded {
            after.gpr[ra] = step.load(ea.wrapping_sub(128 - 4 * ra as u32)).expect("it was loaded");
        }
    }),
    ("lsku loads all or nothing", |step, after, _| {
        if step.outside(Kind::Lsku).is_some() {
            after.gpr = step.before.gpr;
        }
    }),
    ("lsku has room for one doubleword more", |step, after, _| {
        let [stack, ea] = step.ends();
        if step.executed(Kind::Lsku) && ea.wrapping_sub(stack) == 8 && step.word.ra() < 28 {
            after.gpr[30] = step.load(ea.wrapping_sub(8)).unwrap_or(after.gpr[30]);
        }
    }),
    ("a frame leaves EDR", |step, after, _| {
        if step.executed(Kind::Lsku) || step.executed(Kind::Stsku) {
            after.edr = step.before.edr;
        }
    }),
    ("a frame's fault has EDR at its EA", |step, after, _| {
        if step.outside(Kind::Lsku).or(step.outside(Kind::Stsku)).is_some() {
            after.edr = step.ends()[1];
        }
    }),
    ("stsku stores the back pointer first", |step, _, memory| {
        let [stack, ea] = step.ends();
        if step.outside(Kind::Stsku).is_some_and(|address| address != ea) {
            store(memory, ea, stack);
        }
    }),
    ("stsku stores all or nothing", |step, _, memory| {
        if step.outside(Kind::Stsku).is_some() {
            memory.copy_from_slice(step.memory);
        }
    }),
    ("stsku counts by two's complement", |step, _, memory| {
        let [stack, ea] = step.ends();
        if step.executed(Kind::Stsku) && stack.wrapping_sub(ea) == 8 {
            store(memory, stack.wrapping_sub(4), step.before.gpr[31]);
        }
    }),
    ("stsku stores the new stack pointer", |step, _, memory| {
        if step.executed(Kind::Stsku) {
            store(memory, step.ends()[1], step.ends()[1]);
        }
    }),
    ("a stack pointer is aligned by four", |step, after, _| {
        if let Outcome::Faulted(Fault::Alignment { address, .. }, _) = step.outcome {
            if address % 4 == 0 && matches!(step.word.kind(Ppe42x), Some(Kind::Lsku | Kind::Stsku)) {
                *after = Core { iar: step.before.iar.wrapping_add(4), ..step.before.clone() };
            }
        }
    }),
];

const OTHER_FLAWS: [(&str, WordFlaw); 4] = [
    ("mullwo only sets OV", |step, after, _| {
        if step.executed(Kind::Mullw) {
            after.xer |= step.before.xer & xer::OV;
        }
    }),
    ("mullwo takes an unsigned product", |step, after, _| {
        let [a, b] = [step.word.ra(), step.word.rb()].map(|number| step.before.gpr[number] as u64);
        if step.executed(Kind::Mullw) && step.word.oe() && a * b > u32::MAX as u64 {
            after.xer |= xer::SO | xer::OV;
        }
    }),
    ("CR0 of a doubleword is that of its low-order word", |step, after, _| {
        let rotates = matches!(step.outcome, Outcome::Executed(Kind::Rldicl | Kind::Rldicr | Kind::Rldimi));
        if rotates && step.word.rc() && after.gpr[(step.word.ra() + 1) % 32] == 0 {
            after.cr = after.cr & second::registers::cr::SO | second::registers::cr::EQ;
        }
    }),
    ("a machine check goes to 000", |step, after, _| {
        if matches!(step.outcome, Outcome::Faulted(_, Taken::Promoted)) {
            after.iar = after.ivpr;
        }
    }),
];

/// As which core a step is played whose word is this.
type Played = fn(Profile, Word) -> Profile;

fn is_tw_with_tg(word: Word) -> bool {
    word.0 >> 26 == 31 && word.0 & 0x7FF == 4 << 1 | 1
}

const PLAYED_AS_42: [(&str, Played); 2] = [
    ("tw with TG traps", |profile, word| if is_tw_with_tg(word) { Ppe42 } else { profile }),
    (
        "mtspr keeps what the 42 defines",
        |profile, word| {
            if word.kind(profile) == Some(Kind::Mtspr) {
                Ppe42
            } else {
                profile
            }
        },
    ),
];

const PLAYED_AS_42X: [(&str, Played); 3] = [
    ("the 42 has mulli", |profile, word| if word.kind(Ppe42x) == Some(Kind::Mulli) { Ppe42x } else { profile }),
    ("the 42 has lsku", |profile, word| if word.kind(Ppe42x) == Some(Kind::Lsku) { Ppe42x } else { profile }),
    ("the 42 looks at TG", |profile, word| if is_tw_with_tg(word) { Ppe42x } else { profile }),
];

/// The event that a step sees.
type Seen = fn(&Core, u8) -> u8;

/// Exchanges timers 1 and 3 where they drive nothing but DEC.
fn exchanged(core: &Core, event: u8) -> u8 {
    let odd = (core.tcr & tcr::WP) >> tcr::WP_SHIFT | (core.tcr & tcr::FP) >> tcr::FP_SHIFT;
    if odd & 1 == 0 {
        event & !0b101000 | (event & 8) << 2 | (event & 32) >> 2
    } else {
        event
    }
}

/// A run of the second implementation with the flaws, which tells its reach as it is set to, to the end or up to that, and
/// sees stops as it is set to.
fn flawed(to_the_end: bool, state: &mut [u8], memory: &mut [u8], events: &[u8], stops: &[u8], budget: u32) -> u64 {
    let profile = PROFILE.get();
    let Ok(mut core) = second::accept(profile, state, memory, events, budget) else {
        return second::run_reach(profile, state, memory, events, budget);
    };
    let mut steps = 0;
    let (mut reached, mut stopped) = (false, false);
    while steps < budget && core.halt == 0 && (to_the_end || !reached) && !stopped {
        let event = SEEN.get()(&core, events.get(steps as usize).copied().unwrap_or(0));
        let (before, tried) = (core.clone(), Tried::of(&core, memory, event));
        let word = memory.get(core.iar as usize..).and_then(|rest| rest.first_chunk());
        let word = Word(word.map_or(0, |bytes| u32::from_be_bytes(*bytes)));
        let kept = WORD_FLAW.get().map(|flaw| (flaw, memory.to_vec()));
        let outcome = core.step(PLAYED.get()(profile, word), memory, event);
        FLAW.get()(&before, outcome, &mut core);
        if let Some((flaw, kept)) = kept {
            flaw(&Step { word, before: &before, memory: &kept, outcome }, &mut core, memory);
        }
        if let Some(tried) = tried {
            ACCESS_FLAW.get()(&tried, outcome, &mut core, memory);
        }
        let outside = [before.iar, core.iar].map(|iar| iar as usize >= memory.len());
        reached = TELL.get()(reached, outcome, outside);
        stopped = STOPPED.get()(stops, outcome, [before.iar, core.iar]);
        steps += 1;
    }
    state.copy_from_slice(&core.to_words().map(u32::to_be_bytes).concat());
    steps as u64 | if reached { REACHED } else { 0 }
}

fn flawed_run_reach(state: &mut [u8], memory: &mut [u8], events: &[u8], budget: u32) -> u64 {
    flawed(true, state, memory, events, &[], budget)
}

fn flawed_run_inside(state: &mut [u8], memory: &mut [u8], events: &[u8], budget: u32) -> u64 {
    flawed(false, state, memory, events, &[], budget)
}

fn flawed_run_until(state: &mut [u8], memory: &mut [u8], events: &[u8], stops: &[u8], budget: u32) -> u64 {
    flawed(true, state, memory, events, stops, budget) & !REACHED
}

fn flawed_run(state: &mut [u8], memory: &mut [u8], events: &[u8], budget: u32) -> u64 {
    flawed_run_reach(state, memory, events, budget) & !REACHED
}

/// That what is set is caught in each of the four runs.
fn assert_caught(name: &str) {
    assert!(caught(&Library { run: flawed_run, ..linked() }), "{name}");
    assert!(caught(&Library { run_reach: flawed_run_reach, ..linked() }), "{name}, where the reach is told");
    assert!(caught(&Library { run_inside: flawed_run_inside, ..linked() }), "{name}, up to the reach");
    assert!(caught(&Library { run_until: flawed_run_until, ..linked() }), "{name}, up to a stop");
}

#[test]
fn flaws_of_what_the_42x_has_besides() {
    PROFILE.set(Ppe42x);
    for (name, flaw) in FRAME_FLAWS.into_iter().chain(OTHER_FLAWS) {
        WORD_FLAW.set(Some(flaw));
        assert_caught(name);
    }
}

#[test]
fn flaws_of_the_wrong_core() {
    for (profile, flaws) in [(Ppe42, &PLAYED_AS_42X[..]), (Ppe42x, &PLAYED_AS_42[..])] {
        PROFILE.set(profile);
        for (name, played) in flaws {
            PLAYED.set(*played);
            assert_caught(name);
        }
    }
}

#[test]
fn flaw_of_the_decrementers_clock() {
    PROFILE.set(Ppe42x);
    SEEN.set(exchanged);
    assert_caught("DS 01 and 11 are exchanged");
}

/// Each function of the other core in its place.
#[test]
fn functions_of_the_other_core() {
    for (profile, right, wrong) in [(Ppe42, LINKED, LINKED_42X), (Ppe42x, LINKED_42X, LINKED)] {
        PROFILE.set(profile);
        assert!(!caught(&right));
        assert!(caught(&Library { legal: wrong.legal, ..right }));
        assert!(caught(&Library { rewrite: wrong.rewrite, ..right }));
        assert!(caught(&Library { run: wrong.run, ..right }));
        assert!(caught(&Library { run_reach: wrong.run_reach, ..right }));
        assert!(caught(&Library { run_inside: wrong.run_inside, ..right }));
        assert!(caught(&Library { run_until: wrong.run_until, ..right }));
        assert!(caught(&Library { run_predecoded: wrong.run_predecoded, ..right }));
        assert!(caught(&Library { run_predecoded_reach: wrong.run_predecoded_reach, ..right }));
        assert!(caught(&Library { step: wrong.step, ..right }));
        assert!(caught(&Library { tell: wrong.tell, ..right }));
        assert!(caught(&Library { access: wrong.access, ..right }));
        assert!(caught(&Library { capture_check: wrong.capture_check, ..right }));
        assert!(caught(&Library { capture_write: wrong.capture_write, ..right }));
    }
}

#[test]
fn flaws_of_a_step() {
    for (name, flaw) in FLAWS {
        FLAW.set(flaw);
        assert_caught(name);
    }
}

#[test]
fn flaws_of_an_access() {
    for (name, flaw) in UNALIGNED_FLAWS.into_iter().chain(PAIR_FLAWS) {
        ACCESS_FLAW.set(flaw);
        assert_caught(name);
    }
}

#[test]
fn flaws_of_telling_a_reach() {
    for (name, tell) in WRONGLY {
        TELL.set(tell);
        assert!(caught(&Library { run_reach: flawed_run_reach, ..LINKED }), "{name}");
        assert!(caught(&Library { run_inside: flawed_run_inside, ..LINKED }), "{name}, up to the reach");
    }
    TELL.set(LAST_STEP);
    assert!(caught(&Library { run_reach: flawed_run_reach, ..LINKED }));
    TELL.set(RIGHTLY);
    assert!(!caught(&Library { run_reach: flawed_run_reach, run_inside: flawed_run_inside, ..LINKED }));
}

#[test]
fn flaws_of_seeing_a_stop() {
    for profile in Profile::BOTH {
        PROFILE.set(profile);
        for (name, stopped) in STOPPED_WRONGLY {
            STOPPED.set(stopped);
            assert!(caught(&Library { run_until: flawed_run_until, ..linked() }), "{name}");
        }
        STOPPED.set(AT_A_STOP);
        assert!(!caught(&Library { run_until: flawed_run_until, ..linked() }));
    }
}

/// The second implementation's, of a 42.
fn until(state: &mut [u8], memory: &mut [u8], events: &[u8], stops: &[u8], budget: u32) -> u64 {
    second::run_until(Ppe42, state, memory, events, stops, budget)
}

/// Its answer, with nothing changed.
fn until_answers(state: &[u8], memory: &[u8], events: &[u8], stops: &[u8], budget: u32) -> u64 {
    until(&mut state.to_vec(), &mut memory.to_vec(), events, stops, budget)
}

const UNTIL_FLAWS: [(&str, Until); 12] = [
    ("a run that begins at a stop takes no step", |state, memory, events, stops, budget| {
        match second::accept(Ppe42, state, memory, events, budget) {
            Ok(core) if is_stop(stops, core.iar) => 0,
            _ => until(state, memory, events, stops, budget),
        }
    }),
    ("the last step is not counted", |state, memory, events, stops, budget| {
        let steps = until(state, memory, events, stops, budget);
        steps - (steps > 0 && steps < budget as u64 && state[143] == 0) as u64
    }),
    ("the last step is not taken", |state, memory, events, stops, budget| {
        let answer = until_answers(state, memory, events, stops, budget);
        second::run(Ppe42, state, memory, events, (answer as u32).saturating_sub(1));
        answer
    }),
    ("a reach is told", |state, memory, events, stops, budget| {
        match until_answers(state, memory, events, stops, budget) {
            refusal @ 0x1_0000_0000.. => refusal,
            steps => second::run_reach(Ppe42, state, memory, events, steps as u32),
        }
    }),
    ("stops past memory are not seen", |state, memory, events, stops, budget| {
        let seen = stops.len().min(memory.len() / 4);
        until(state, memory, events, &stops[..seen], budget)
    }),
    ("the last byte is not seen", |state, memory, events, stops, budget| {
        until(state, memory, events, &stops[..stops.len().saturating_sub(1)], budget)
    }),
    ("an empty list is refused", |state, memory, events, stops, budget| match stops.len() {
        0 => 5 << 32,
        _ => until(state, memory, events, stops, budget),
    }),
    ("a list longer than memory is refused", |state, memory, events, stops, budget| {
        match stops.len() > memory.len() / 4 {
            true => 5 << 32,
            false => until(state, memory, events, stops, budget),
        }
    }),
    ("a list of more than 1,048,576 bytes is refused", |state, memory, events, stops, budget| match stops.len() {
        0..=0x10_0000 => until(state, memory, events, stops, budget),
        _ => 5 << 32,
    }),
    ("a byte of 64 is refused", |state, memory, events, stops, budget| match stops.contains(&64) {
        true => 5 << 32,
        false => until(state, memory, events, stops, budget),
    }),
    ("events past the budget are not looked at", |state, memory, events, stops, budget| {
        until(state, memory, &events[..events.len().min(budget as usize)], stops, budget)
    }),
    ("a budget too large is not refused", |state, memory, events, stops, budget| {
        until(state, memory, events, stops, budget.min(1 << 20))
    }),
];

#[test]
fn flaws_of_a_run_up_to_a_stop() {
    for (name, run_until) in UNTIL_FLAWS {
        assert!(caught(&Library { run_until, ..LINKED }), "{name}");
    }
}

/// What is told of a step with this event: given the core, what the step comes to, and the length of memory.
type Told = fn(&Core, Outcome, u8, usize) -> u32;

const TOLD_WRONGLY: [(&str, Told); 13] = [
    ("a halted core executes", |_, outcome, _, _| outcome.told().max(1)),
    ("a fault that halts is a halt", |_, outcome, _, _| match outcome {
        Outcome::Faulted(_, Taken::Halting) => 0,
        _ => outcome.told(),
    }),
    ("a promoted fault is executed", |_, outcome, _, _| match outcome {
        Outcome::Faulted(_, Taken::Promoted) => 1,
        _ => outcome.told(),
    }),
    ("a trap that halts is a fault", |core, outcome, _, _| match outcome {
        Outcome::Executed(Kind::Tw) if core.dbcr & second::registers::dbcr::TRAP != 0 => 12,
        _ => outcome.told(),
    }),
    ("a trap is illegal", |_, outcome, _, _| outcome.told().min(11)),
    ("outside comes before unaligned", |_, outcome, _, length| match outcome {
        Outcome::Faulted(Fault::Alignment { address, .. }, _) if address as usize >= length => 8,
        _ => outcome.told(),
    }),
    ("an unaligned access is one outside", |_, outcome, _, _| match outcome {
        Outcome::Faulted(Fault::Alignment { .. }, _) => 8,
        _ => outcome.told(),
    }),
    ("a doubleword may stand at any word", |_, outcome, _, _| match outcome {
        Outcome::Faulted(Fault::Alignment { address, .. }, _) if address % 4 == 0 => 1,
        _ => outcome.told(),
    }),
    ("the two storage faults are one", |_, outcome, _, _| match outcome {
        Outcome::Faulted(Fault::InstructionStorage, _) => 8,
        _ => outcome.told(),
    }),
    ("the wait comes before an interrupt", |core, outcome, _, _| match outcome {
        Outcome::Interrupted(_) if core.msr & msr::WE != 0 => 2,
        _ => outcome.told(),
    }),
    ("the watchdog's interrupt comes before its action", |core, outcome, _, _| match outcome {
        Outcome::WatchdogActed if core.msr & msr::EE != 0 && core.tcr & tcr::WIE != 0 => 7,
        _ => outcome.told(),
    }),
    ("a request comes before the watchdog", |_, outcome, event, _| match outcome {
        Outcome::Interrupted(Asynchronous::Watchdog) if event & 1 != 0 => 4,
        _ => outcome.told(),
    }),
    ("the decrementer comes before the fixed interval", |core, outcome, _, _| match outcome {
        Outcome::Interrupted(Asynchronous::FixedInterval) if core.tcr & tcr::DIE != 0 && core.tsr & tsr::DIS != 0 => 5,
        _ => outcome.told(),
    }),
];

/// What is told of a step's access: given what it rightly is, what the step comes to, and the core.
type Accesses = fn(Option<Access>, Outcome, &Core) -> Option<Access>;

const ACCESSED_WRONGLY: [(&str, Accesses); 10] = [
    ("nothing is accessed", |_, _, _| None),
    ("an unaligned access is not tried", |access, outcome, _| {
        access.filter(|_| !matches!(outcome, Outcome::Faulted(Fault::Alignment { .. }, _)))
    }),
    ("an access outside is not tried", |access, outcome, _| {
        access.filter(|_| !matches!(outcome, Outcome::Faulted(Fault::DataStorage { .. }, _)))
    }),
    ("dcbz outside begins at its own address", |access, outcome, _| match outcome {
        Outcome::Faulted(Fault::DataStorage { address, .. }, _) => access.map(|access| Access { address, ..access }),
        _ => access,
    }),
    ("dcbz is one byte", |access, _, _| access.map(|access| Access { bytes: (access.bytes % 32).max(1), ..access })),
    ("dcbz reads", |access, _, _| {
        access.map(|access| Access { writes: access.writes && access.bytes != 32, ..access })
    }),
    ("a doubleword is its first word", |access, _, _| {
        access.map(|access| Access { bytes: if access.bytes == 8 { 4 } else { access.bytes }, ..access })
    }),
    ("a load writes", |access, _, _| access.map(|access| Access { writes: true, ..access })),
    ("a halfword begins at a word", |access, _, _| {
        access.map(|access| Access { address: access.address & !3, ..access })
    }),
    ("a cache hint is a load", |access, outcome, core| match outcome {
        Outcome::Executed(Kind::Dcbt) => Some(Access { address: core.gpr[4], bytes: 1, writes: false }),
        _ => access,
    }),
];

/// The same of frames.
const FRAMES_WRONGLY: [(&str, Accesses); 4] = [
    ("a frame has no header", |access, _, _| {
        access.map(|access| Access { bytes: if access.bytes > 8 { access.bytes - 8 } else { access.bytes }, ..access })
    }),
    ("a frame is the word of LR", |access, outcome, core| match outcome {
        Outcome::Executed(Kind::Lsku) => access.map(|access| Access { address: core.edr, bytes: 4, ..access }),
        _ => access,
    }),
    ("a frame is only read", |access, outcome, _| match outcome {
        Outcome::Executed(Kind::Stsku) => access.map(|access| Access { writes: false, ..access }),
        _ => access,
    }),
    ("a frame that faults is the access that does", |access, outcome, _| match outcome {
        Outcome::Faulted(Fault::DataStorage { address, .. }, _) => access.map(|access| Access { address, ..access }),
        _ => access,
    }),
];

thread_local! {
    static TOLD: Cell<Told> = const { Cell::new(|_, outcome, _, _| outcome.told()) };
    static ACCESSES: Cell<Accesses> = const { Cell::new(|access, _, _| access) };
}

fn flawed_tell(state: &mut [u8], memory: &mut [u8], event: u8) -> u64 {
    match second::accept(PROFILE.get(), state, memory, &[event], 1) {
        Ok(core) => TOLD.get()(&core, core.tell(PROFILE.get(), memory, event), event, memory.len()) as u64,
        Err(refusal) => (refusal as u64) << 32,
    }
}

fn flawed_access(state: &mut [u8], memory: &mut [u8], event: u8) -> u64 {
    let profile = PROFILE.get();
    let Ok(core) = second::accept(profile, state, memory, &[event], 1) else {
        return 0;
    };
    let (access, told) = (core.access(profile, memory, event), core.tell(profile, memory, event));
    ACCESSES.get()(access, told, &core).map_or(0, Access::answer)
}

#[test]
fn flaws_of_telling_a_step() {
    assert!(!caught(&Library { tell: flawed_tell, ..LINKED }));
    for (name, told) in TOLD_WRONGLY {
        TOLD.set(told);
        assert!(caught(&Library { tell: flawed_tell, ..LINKED }), "{name}");
    }
}

#[test]
fn flaws_of_telling_an_access() {
    assert!(!caught(&Library { access: flawed_access, ..LINKED }));
    for (name, accesses) in ACCESSED_WRONGLY {
        ACCESSES.set(accesses);
        assert!(caught(&Library { access: flawed_access, ..LINKED }), "{name}");
    }
}

#[test]
fn flaws_of_telling_a_frame() {
    PROFILE.set(Ppe42x);
    assert!(!caught(&Library { access: flawed_access, ..LINKED_42X }));
    for (name, accesses) in FRAMES_WRONGLY {
        ACCESSES.set(accesses);
        assert!(caught(&Library { access: flawed_access, ..LINKED_42X }), "{name}");
    }
}

fn lhzu_into_its_base_is_legal(word: u32) -> u32 {
    (word >> 26 == 41 && word >> 21 & 31 == word >> 16 & 31 || second::legal(Ppe42, word)) as u32
}

fn lvdu_into_its_base_is_legal(word: u32) -> u32 {
    (word >> 26 == 9 && (word >> 21 & 31) + 1 == word >> 16 & 31 || second::legal(Ppe42, word)) as u32
}

fn register_10_begins_a_pair(word: u32) -> u32 {
    (word >> 21 == 5 << 5 | 10 || second::legal(Ppe42, word)) as u32
}

fn branch_hint_is_lost(word: u32) -> u64 {
    let bclr = word >> 26 == 19;
    (LINKED.rewrite)(word) & !if bclr { 0b11 << 11 } else { 0 }
}

fn halting_step_is_not_counted(state: &mut [u8], memory: &mut [u8], events: &[u8], budget: u32) -> u64 {
    let steps = second::run(Ppe42, state, memory, events, budget);
    steps - (steps > 0 && steps < budget as u64) as u64
}

fn halt_code_is_checked_before_iar(state: &mut [u8], memory: &mut [u8], events: &[u8], budget: u32) -> u64 {
    match second::run(Ppe42, state, memory, events, budget) {
        0x2_0000_0000 if state[143] > 5 => 0x3_0000_0000,
        answer => answer,
    }
}

fn event_64_is_taken(state: &mut [u8], memory: &mut [u8], event: u8) -> u64 {
    second::step(Ppe42, state, memory, event & !64)
}

fn refused_run_reaches(state: &mut [u8], memory: &mut [u8], events: &[u8], budget: u32) -> u64 {
    match second::run_reach(Ppe42, state, memory, events, budget) {
        refusal @ 0x1_0000_0000..REACHED => refusal | REACHED,
        answer => answer,
    }
}

fn reach_is_not_counted(state: &mut [u8], memory: &mut [u8], events: &[u8], budget: u32) -> u64 {
    match second::run_inside(Ppe42, state, memory, events, budget) {
        reached @ REACHED.. => reached - 1,
        answer => answer,
    }
}

fn reach_is_not_taken(state: &mut [u8], memory: &mut [u8], events: &[u8], budget: u32) -> u64 {
    let (state_before, memory_before) = (state.to_vec(), memory.to_vec());
    let answer = second::run_inside(Ppe42, state, memory, events, budget);
    if answer & REACHED != 0 {
        state.copy_from_slice(&state_before);
        memory.copy_from_slice(&memory_before);
        second::run(Ppe42, state, memory, events, answer as u32 - 1);
    }
    answer
}

fn told_step_is_taken(state: &mut [u8], memory: &mut [u8], event: u8) -> u64 {
    let told = second::tell(Ppe42, state, memory, event);
    second::step(Ppe42, state, memory, event);
    told
}

fn told_store_is_done(state: &mut [u8], memory: &mut [u8], event: u8) -> u64 {
    let access = second::access(Ppe42, state, memory, event);
    if access & REACHED != 0 {
        memory.iter_mut().skip(access as u32 as usize).take(1).for_each(|byte| *byte = !*byte);
    }
    access
}

fn event_64_is_told(state: &mut [u8], memory: &mut [u8], event: u8) -> u64 {
    second::tell(Ppe42, state, memory, event & !64)
}

fn event_is_not_seen(state: &mut [u8], memory: &mut [u8], event: u8) -> u64 {
    second::tell(Ppe42, state, memory, if event < 64 { 0 } else { event })
}

fn interrupts_do_not_come_first(state: &mut [u8], memory: &mut [u8], event: u8) -> u64 {
    second::access(Ppe42, state, memory, if event < 64 { 0 } else { event })
}

fn refused_tell_has_a_count(state: &mut [u8], memory: &mut [u8], event: u8) -> u64 {
    match second::tell(Ppe42, state, memory, event) {
        refusal @ 0x1_0000_0000.. => refusal | 1,
        told => told,
    }
}

fn access_is_refused(state: &mut [u8], memory: &mut [u8], event: u8) -> u64 {
    match second::tell(Ppe42, state, memory, event) {
        refusal @ 0x1_0000_0000.. => refusal,
        _ => second::access(Ppe42, state, memory, event),
    }
}

fn form_0_is_read(file: &[u8]) -> u64 {
    match file {
        [rest @ .., 0] => second::capture_check(Ppe42, &[rest, &[1]].concat()),
        _ => second::capture_check(Ppe42, file),
    }
}

fn refused_capture_has_a_memory(file: &[u8]) -> u64 {
    match second::capture_check(Ppe42, file) {
        refusal @ 0x1_0000_0000.. => refusal | file.len().saturating_sub(156) as u64,
        length => length,
    }
}

fn file_is_all_memory(file: &[u8]) -> u64 {
    match second::capture_check(Ppe42, file) {
        refusal @ 0x1_0000_0000.. => refusal,
        _ => file.len() as u64,
    }
}

fn byte_after_a_capture_is_cleared(state: &[u8], memory: &[u8], out: &mut [u8]) -> u64 {
    let answer = second::capture_write(Ppe42, state, memory, out);
    if answer >> 32 == 0 {
        out[answer as usize..].iter_mut().take(1).for_each(|byte| *byte = 0);
    }
    answer
}

fn long_run_is_a_step_short(state: &mut [u8], memory: &mut [u8], events: &[u8], budget: u32) -> u64 {
    let short = (16_384..=1_048_576).contains(&budget);
    second::run(Ppe42, state, memory, events, budget - short as u32)
}

#[test]
fn flaws_of_single_functions() {
    assert!(caught(&Library { legal: lhzu_into_its_base_is_legal, ..LINKED }));
    assert!(caught(&Library { legal: lvdu_into_its_base_is_legal, ..LINKED }));
    assert!(caught(&Library { legal: register_10_begins_a_pair, ..LINKED }));
    assert!(caught(&Library { rewrite: branch_hint_is_lost, ..LINKED }));
    assert!(caught(&Library { run: halting_step_is_not_counted, ..LINKED }));
    assert!(caught(&Library { run: halt_code_is_checked_before_iar, ..LINKED }));
    assert!(caught(&Library { run: LINKED.run_reach, ..LINKED }));
    assert!(caught(&Library { run_reach: refused_run_reaches, ..LINKED }));
    assert!(caught(&Library { run_inside: LINKED.run, ..LINKED }));
    assert!(caught(&Library { run_inside: LINKED.run_reach, ..LINKED }));
    assert!(caught(&Library { run_inside: reach_is_not_counted, ..LINKED }));
    assert!(caught(&Library { run_inside: reach_is_not_taken, ..LINKED }));
    assert!(caught(&Library { run_predecoded: LINKED.run_reach, ..LINKED }));
    assert!(caught(&Library { run_predecoded: halting_step_is_not_counted, ..LINKED }));
    assert!(caught(&Library { run_predecoded: long_run_is_a_step_short, ..LINKED }));
    assert!(caught(&Library { run_predecoded_reach: LINKED.run, ..LINKED }));
    assert!(caught(&Library { step: event_64_is_taken, ..LINKED }));
    assert!(caught(&Library { tell: told_step_is_taken, ..LINKED }));
    assert!(caught(&Library { tell: event_64_is_told, ..LINKED }));
    assert!(caught(&Library { tell: event_is_not_seen, ..LINKED }));
    assert!(caught(&Library { tell: refused_tell_has_a_count, ..LINKED }));
    assert!(caught(&Library { access: told_store_is_done, ..LINKED }));
    assert!(caught(&Library { access: interrupts_do_not_come_first, ..LINKED }));
    assert!(caught(&Library { access: access_is_refused, ..LINKED }));
    assert!(caught(&Library { capture_check: form_0_is_read, ..LINKED }));
    assert!(caught(&Library { capture_check: refused_capture_has_a_memory, ..LINKED }));
    assert!(caught(&Library { capture_check: file_is_all_memory, ..LINKED }));
    assert!(caught(&Library { capture_write: byte_after_a_capture_is_cleared, ..LINKED }));
}

fn context_is_loaded(word: u32) -> u32 {
    second::legal(Ppe42x, if word >> 26 == 58 { word & !4 } else { word }) as u32
}

fn lsku_may_load_nothing(word: u32) -> u32 {
    (second::legal(Ppe42x, word) || second::legal(Ppe42x, word | 8) && word >> 26 == 58) as u32
}

fn stsku_may_go_up(word: u32) -> u32 {
    second::legal(Ppe42x, if word >> 26 == 62 { word | 0x8000 } else { word }) as u32
}

fn rldic_is_legal(word: u32) -> u32 {
    second::legal(Ppe42x, if word >> 26 == 30 { word & !8 } else { word }) as u32
}

fn any_register_begins_a_target(word: u32) -> u32 {
    second::legal(Ppe42x, if word >> 21 & 0x7FF == word >> 16 & 31 | 30 << 5 { 30 << 26 } else { word }) as u32
}

fn high_bit_of_a_mask_is_lost(word: u32) -> u64 {
    (LINKED_42X.rewrite)(word) & !if word >> 26 == 30 { 1 << 5 } else { 0 }
}

fn tg_is_lost(word: u32) -> u64 {
    (LINKED_42X.rewrite)(word) & !(is_tw_with_tg(Word(word)) as u64)
}

#[test]
fn flaws_of_single_functions_of_the_42x() {
    PROFILE.set(Ppe42x);
    assert!(caught(&Library { legal: context_is_loaded, ..LINKED_42X }));
    assert!(caught(&Library { legal: lsku_may_load_nothing, ..LINKED_42X }));
    assert!(caught(&Library { legal: stsku_may_go_up, ..LINKED_42X }));
    assert!(caught(&Library { legal: rldic_is_legal, ..LINKED_42X }));
    assert!(caught(&Library { legal: any_register_begins_a_target, ..LINKED_42X }));
    assert!(caught(&Library { rewrite: high_bit_of_a_mask_is_lost, ..LINKED_42X }));
    assert!(caught(&Library { rewrite: tg_is_lost, ..LINKED_42X }));
}

#[test]
fn the_second_implementation_agrees_with_itself() {
    for profile in Profile::BOTH {
        PROFILE.set(profile);
        assert!(!caught(&of_second()));
    }
}

/// The second implementation's functions of the core that is set, without the library's C names.
fn of_second() -> Library {
    Library {
        run: |state, memory, events, budget| second::run(PROFILE.get(), state, memory, events, budget),
        run_reach: |state, memory, events, budget| second::run_reach(PROFILE.get(), state, memory, events, budget),
        run_inside: |state, memory, events, budget| second::run_inside(PROFILE.get(), state, memory, events, budget),
        run_until: |state, memory, events, stops, budget| {
            second::run_until(PROFILE.get(), state, memory, events, stops, budget)
        },
        run_predecoded: |state, memory, events, budget| second::run(PROFILE.get(), state, memory, events, budget),
        run_predecoded_reach: |state, memory, events, budget| {
            second::run_reach(PROFILE.get(), state, memory, events, budget)
        },
        step: |state, memory, event| second::step(PROFILE.get(), state, memory, event),
        capture_check: |file| second::capture_check(PROFILE.get(), file),
        capture_write: |state, memory, out| second::capture_write(PROFILE.get(), state, memory, out),
        tell: |state, memory, event| second::tell(PROFILE.get(), state, memory, event),
        access: |state, memory, event| second::access(PROFILE.get(), state, memory, event),
        ..linked()
    }
}
