//! That the comparison on programs that rewrite themselves can fail: each engine below keeps words with one flaw, and each is
//! caught; the one without is not.

use differ::{rewriting, Subject};
use draw::Urn;
use linked::{Library, REACHED};
use second::Profile::{self, Ppe42, Ppe42x};
use second::{Access, Fault, Kind, Outcome};
use std::cell::Cell;

const RUNS: u64 = 600;
const SETS: usize = 64;
const WAYS: usize = 4;

/// A store or clear that was executed: what it is, its bytes, and the place of its own word in memory.
struct Stored {
    kind: Kind,
    access: Access,
    own: usize,
}

impl Stored {
    fn first(&self) -> usize {
        self.access.address as usize / 4
    }

    /// Of a frame this is LR's.
    fn last(&self) -> usize {
        (self.access.address + self.access.bytes - 1) as usize / 4
    }

    fn is(&self, kinds: &[Kind]) -> bool {
        kinds.contains(&self.kind)
    }
}

/// Whether the entry of a word is left though the store landed there.
type Leaves = fn(&Stored, usize) -> bool;

const FLAWS: [(&str, Leaves); 11] = [
    ("nothing is dropped", |_, _| true),
    ("its own word is left", |stored, place| place == stored.own),
    ("the second word of two is left", |stored, place| stored.access.bytes <= 4 && place > stored.first()),
    ("the first word of two is left", |stored, place| stored.access.bytes <= 4 && place < stored.last()),
    ("the second word of a pair is left", |stored, place| stored.access.bytes == 8 && place > stored.first()),
    ("bytes drop nothing", |stored, _| stored.access.bytes == 1),
    ("halfwords drop nothing", |stored, _| stored.access.bytes == 2),
    ("update forms drop nothing", |stored, _| stored.is(&[Kind::Stbu, Kind::Sthu, Kind::Stwu, Kind::Stvdu])),
    ("indexed forms drop nothing", |stored, _| stored.is(&[Kind::Stbx, Kind::Sthx, Kind::Stwx])),
    ("a clear drops nothing", |stored, _| stored.kind == Kind::Dcbz),
    ("a clear leaves the last word", |stored, place| stored.kind == Kind::Dcbz && place == stored.last()),
];

const FRAME_FLAWS: [(&str, Leaves); 3] = [
    ("a frame drops nothing", |stored, _| stored.kind == Kind::Stsku),
    ("a frame leaves LR", |stored, place| stored.kind == Kind::Stsku && place == stored.last()),
    ("a frame leaves the back pointer", |stored, place| stored.kind == Kind::Stsku && place == stored.first()),
];

/// What an engine keeps of which profile: how many tags it tells apart, and what it leaves.
#[derive(Clone, Copy)]
struct Engine {
    profile: Profile,
    tags: usize,
    leaves: Leaves,
}

const RIGHT: Engine = Engine { profile: Ppe42, tags: usize::MAX, leaves: |_, _| false };

thread_local! {
    static ENGINE: Cell<Engine> = const { Cell::new(RIGHT) };
}

fn run_predecoded(state: &mut [u8], memory: &mut [u8], events: &[u8], budget: u32) -> u64 {
    ENGINE.get().play(state, memory, events, budget) & !REACHED
}

fn run_predecoded_reach(state: &mut [u8], memory: &mut [u8], events: &[u8], budget: u32) -> u64 {
    ENGINE.get().play(state, memory, events, budget)
}

impl Engine {
    /// By the second implementation, with the word that is kept laid in memory for the step that executes it.
    fn play(&self, state: &mut [u8], memory: &mut [u8], events: &[u8], budget: u32) -> u64 {
        let profile = self.profile;
        let mut core = match second::accept(profile, state, memory, events, budget) {
            Ok(core) => core,
            Err(refusal) => return (refusal as u64) << 32,
        };
        let mut entries = Entries { tags: self.tags, sets: vec![vec![]; SETS] };
        let (mut steps, mut reached) = (0, 0);
        while steps < budget && core.halt == 0 {
            let event = events.get(steps as usize).copied().unwrap_or(0);
            let at = core.iar as usize;
            let actual: Option<[u8; 4]> = memory.get(at..).and_then(|rest| rest.first_chunk().copied());
            let kept = entries.find(at / 4);
            if let (Some(_), Some(kept)) = (actual, kept) {
                memory[at..at + 4].copy_from_slice(&kept);
            }
            let access = core.access(profile, memory, event).filter(|access| access.writes);
            let outcome = core.step(profile, memory, event);
            if let (Some(actual), Some(kept)) = (actual, kept) {
                // what the step did not store is as it was
                for (byte, (actual, kept)) in memory[at..at + 4].iter_mut().zip(actual.into_iter().zip(kept)) {
                    *byte = if *byte == kept { actual } else { *byte };
                }
            }
            let fetched = matches!(outcome, Outcome::Executed(_) | Outcome::Faulted(..));
            if let (Some(actual), None, true) = (actual, kept, fetched) {
                entries.keep(at / 4, actual);
            }
            if let (Some(access), Outcome::Executed(kind)) = (access, outcome) {
                let stored = Stored { kind, access, own: at / 4 };
                for place in (stored.first()..=stored.last()).filter(|place| !(self.leaves)(&stored, *place)) {
                    entries.drop(place);
                }
            }
            let outside = matches!(outcome, Outcome::Faulted(Fault::InstructionStorage | Fault::DataStorage { .. }, _));
            reached |= outside as u64;
            steps += 1;
        }
        for (bytes, word) in state.chunks_mut(4).zip(core.to_words()) {
            bytes.copy_from_slice(&word.to_be_bytes());
        }
        steps as u64 | reached << 63
    }
}

/// Words by set, each with the tag of its place, the oldest first.
struct Entries {
    tags: usize,
    sets: Vec<Vec<(usize, [u8; 4])>>,
}

impl Entries {
    fn tag(&self, place: usize) -> usize {
        place / SETS % self.tags
    }

    fn find(&self, place: usize) -> Option<[u8; 4]> {
        self.sets[place % SETS].iter().find(|(tag, _)| *tag == self.tag(place)).map(|(_, word)| *word)
    }

    fn keep(&mut self, place: usize, word: [u8; 4]) {
        let tag = self.tag(place);
        let set = &mut self.sets[place % SETS];
        if set.len() == WAYS {
            set.remove(0);
        }
        set.push((tag, word));
    }

    fn drop(&mut self, place: usize) {
        let tag = self.tag(place);
        self.sets[place % SETS].retain(|entry| entry.0 != tag);
    }
}

/// How many of the runs come before the first that differs.
fn agree(engine: Engine, runs: u64) -> u64 {
    ENGINE.set(engine);
    let linked = Subject::linked(engine.profile);
    let library = Library { run_predecoded, run_predecoded_reach, ..linked.library };
    let subject = Subject { library, ..linked };
    let mut tally = rewriting::Tally::default();
    let same = |run: &u64| rewriting::compare(&subject, &mut Urn::of_case(3, *run), &mut tally).is_ok();
    (0..runs).take_while(same).count() as u64
}

#[test]
fn an_engine_that_drops_what_is_stored_agrees() {
    for profile in Profile::BOTH {
        assert_eq!(agree(Engine { profile, ..RIGHT }, 20), 20);
    }
}

#[test]
fn an_engine_that_leaves_a_word_is_caught() {
    for (flaw, leaves) in FLAWS {
        assert!(agree(Engine { leaves, ..RIGHT }, RUNS) < RUNS, "{flaw}");
    }
}

#[test]
fn an_engine_that_leaves_a_word_of_a_frame_is_caught() {
    for (flaw, leaves) in FRAME_FLAWS {
        assert!(agree(Engine { profile: Ppe42x, leaves, ..RIGHT }, RUNS) < RUNS, "{flaw}");
    }
}

#[test]
fn an_engine_that_takes_one_word_for_another_of_its_set_is_caught() {
    for tags in [1, 4] {
        assert!(agree(Engine { tags, ..RIGHT }, RUNS) < RUNS, "{tags} tags");
    }
}
