//! What a step would do, asked before it is taken (include/ppe42.h).

use crate::interrupts::{Asynchronous, Fault};
use crate::memory;
use crate::profile::Profile;
use crate::registers::Core;
use crate::step::Outcome;
use crate::word::{Kind, Word};

/// A data access that an instruction tries; of lsku and stsku the frame that holds all of theirs.
#[derive(Clone, Copy, Debug, PartialEq, Eq)]
pub struct Access {
    /// Its first address; of dcbz the block's, of a frame that of its lower end.
    pub address: u32,
    pub bytes: u32,
    pub writes: bool,
}

/// Bytes of a frame's header, which are the back pointer and LR. What is told ends with the header of the frame above.
const HEADER: u32 = 8;

impl Access {
    /// Address + bytes * 2^32, + 2^63 if it writes.
    pub fn answer(self) -> u64 {
        (self.writes as u64) << 63 | (self.bytes as u64) << 32 | self.address as u64
    }
}

impl Outcome {
    /// Its number in `enum ppe42_told`. A fault has one however it is taken.
    pub fn told(self) -> u32 {
        match self {
            Outcome::AlreadyHalted => 0,
            Outcome::Executed(_) => 1,
            Outcome::Waited => 2,
            Outcome::WatchdogActed => 3,
            Outcome::Interrupted(Asynchronous::External) => 4,
            Outcome::Interrupted(Asynchronous::Decrementer) => 5,
            Outcome::Interrupted(Asynchronous::FixedInterval) => 6,
            Outcome::Interrupted(Asynchronous::Watchdog) => 7,
            Outcome::Faulted(Fault::DataStorage { .. }, _) => 8,
            Outcome::Faulted(Fault::InstructionStorage, _) => 9,
            Outcome::Faulted(Fault::Alignment { .. }, _) => 10,
            Outcome::Faulted(Fault::Program { trap: false, .. }, _) => 11,
            Outcome::Faulted(Fault::Program { trap: true, .. }, _) => 12,
        }
    }
}

impl Core {
    /// What the next step would come to: it is taken on copies.
    pub fn tell(&self, profile: Profile, memory: &[u8], event: u8) -> Outcome {
        self.clone().step(profile, &mut memory.to_vec(), event)
    }

    /// The data access that the next step would try, be it one that faults.
    pub fn access(&self, profile: Profile, memory: &[u8], event: u8) -> Option<Access> {
        if self.clone().begin(event).is_some() {
            return None;
        }
        let word = Word(memory::fetch(memory, self.iar).ok()?);
        self.tries(word.kind(profile)?, word)
    }

    /// That of a legal word, as the registers are.
    fn tries(&self, kind: Kind, word: Word) -> Option<Access> {
        use Kind::*;
        let (bytes, writes) = match kind {
            Lbz | Lbzu | Lbzx => (1, false),
            Lhz | Lhzu | Lhzx => (2, false),
            Lwz | Lwzu | Lwzx => (4, false),
            Lvd | Lvdu => (8, false),
            Stb | Stbu | Stbx => (1, true),
            Sth | Sthu | Sthx => (2, true),
            Stw | Stwu | Stwx => (4, true),
            Stvd | Stvdu => (8, true),
            Dcbz => (memory::BLOCK, true),
            Lsku => (word.frame() + HEADER, false),
            Stsku => (word.frame().wrapping_neg() + HEADER, true),
            _ => return None,
        };
        let address = match kind {
            Dcbz => memory::block_of(self.indexed(word)),
            Lsku => self.gpr[word.ra()],
            Stsku => self.gpr[word.ra()].wrapping_add(word.frame()),
            Lbzx | Lhzx | Lwzx | Stbx | Sthx | Stwx => self.indexed(word),
            _ => self.displaced(word),
        };
        Some(Access { address, bytes, writes })
    }
}
