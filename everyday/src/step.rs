//! One step: what the library tells of it before it is taken, and what it left.

use crate::capture::Capture;
use crate::frame::{self, Frame};
use crate::library::{Access, Fault, Interrupt, Refusal, Told};
use crate::registers::{State, EDR, HALT, IAR, MSR, UIE};
use crate::symbols::Symbols;

pub struct Step {
    pub number: u64,
    pub event: u8,
    pub told: Told,
    /// What it accesses, unless that is a frame.
    pub access: Option<Access>,
    /// The word at IAR, where it was fetched.
    pub word: Option<u32>,
    pub before: State,
    pub after: State,
    /// The bytes that its access is to, before and after it; none where they are outside.
    pub bytes: (Vec<u8>, Vec<u8>),
    pub frame: Option<Frame>,
}

/// Takes the step. A capture that was read is accepted, and so is what a step leaves.
pub fn take(capture: &mut Capture, number: u64, event: u8) -> Result<Step, Refusal> {
    let told = capture.profile.tell(&capture.state, &capture.memory, event)?;
    let tried = capture.profile.access(&capture.state, &capture.memory, event);
    let before = capture.state.clone();
    let fetched = matches!(told, Told::Executes | Told::Faults(_)) && told != Told::Faults(Fault::InstructionStorage);
    let word = if fetched { capture.word_at(before.get(IAR)) } else { None };
    let is_frame = word.is_some_and(|word| frame::is_accessed_by(capture.profile, word));
    let access = tried.filter(|_| !is_frame);
    let frame = tried.filter(|_| is_frame).map(|access| Frame::before(capture, access));
    let old = bytes_at(capture, access);
    capture.profile.step(&mut capture.state, &mut capture.memory, event)?;
    let bytes = (old, bytes_at(capture, access));
    let frame = frame.map(|frame| frame.after(capture));
    Ok(Step { number, event, told, access, word, before, after: capture.state.clone(), bytes, frame })
}

fn bytes_at(capture: &Capture, access: Option<Access>) -> Vec<u8> {
    let range = access.map_or(0..0, |access| access.address as usize..access.address as usize + access.bytes as usize);
    capture.memory.get(range).unwrap_or_default().to_vec()
}

impl Step {
    /// The name of what it did, as scripts read it.
    pub fn name(&self) -> &'static str {
        match self.told {
            Told::Halted => "halted",
            Told::Executes => "executed",
            Told::Waits => "waited",
            Told::WatchdogActs => "watchdog acted",
            Told::Takes(Interrupt::External) => "external interrupt",
            Told::Takes(Interrupt::Decrementer) => "decrementer interrupt",
            Told::Takes(Interrupt::FixedInterval) => "fixed interval timer interrupt",
            Told::Takes(Interrupt::Watchdog) => "watchdog interrupt",
            Told::Faults(Fault::DataStorage) => "data storage interrupt",
            Told::Faults(Fault::InstructionStorage) => "instruction storage interrupt",
            Told::Faults(Fault::Alignment) => "alignment interrupt",
            Told::Faults(Fault::Illegal | Fault::Trap) => "program interrupt",
        }
    }

    /// A fault and what caused it.
    pub fn fault(&self, fault: Fault, symbols: &Symbols) -> String {
        format!("{}: {}", self.name(), self.cause(fault, symbols))
    }

    fn cause(&self, fault: Fault, symbols: &Symbols) -> String {
        let at = symbols.place(self.before.get(IAR));
        let word = self.word.unwrap_or_default();
        match fault {
            Fault::InstructionStorage => format!("fetch from {at}, outside the memory"),
            Fault::Illegal => format!("the word {word:08X} at {at} is no instruction"),
            Fault::Trap => format!("trap by the word at {at}"),
            Fault::DataStorage if self.frame.is_some() => {
                format!("{}, at {:08X}, by the word at {at}", self.tried(), self.after.get(EDR))
            }
            Fault::DataStorage => format!("{} by the word at {at}", self.tried()),
            Fault::Alignment if self.frame.is_some() => {
                format!("{}, which begins at no multiple of 8, by the word at {at}", self.tried())
            }
            Fault::Alignment => {
                format!("{} across {:08X}, a multiple of 8, by the word at {at}", self.tried(), self.crossed())
            }
        }
    }

    /// Where the group of eight bytes ends in which its access begins.
    fn crossed(&self) -> u32 {
        self.access.map_or(0, |access| (access.address / 8 * 8).wrapping_add(8))
    }

    fn tried(&self) -> String {
        if let Some(frame) = &self.frame {
            return format!("{} of the frame {:08X}..{:08X}", frame.verb(), frame.access.address, frame.last());
        }
        match self.access {
            Some(Access { address, writes: true, bytes: 32 }) => format!("clearing of the block at {address:08X}"),
            Some(Access { address, writes: true, bytes }) => format!("store to {address:08X}{}", width(bytes)),
            Some(Access { address, bytes, .. }) => format!("load of {address:08X}{}", width(bytes)),
            None => "access".into(),
        }
    }

    /// Whether it was an interrupt that was entered, so that `led_to` names the new IAR.
    pub fn leads(&self) -> bool {
        matches!(self.told, Told::Faults(_) | Told::Takes(_)) && self.after.get(HALT) == 0
    }

    /// Where a fault or an interrupt led, or why it halted the core.
    pub fn led_to(&self, symbols: &Symbols) -> String {
        if let Some(why) = self.halted() {
            return why;
        }
        let to = symbols.place(self.after.get(IAR));
        match self.told {
            Told::Faults(_) if self.before.get(MSR) & UIE == 0 => {
                format!("a machine check, since MSR[UIE] is 0 and MSR[ME] is 1: to {to}")
            }
            _ => format!("to {to}"),
        }
    }

    /// Why this step halted the core, if it did.
    pub fn halted(&self) -> Option<String> {
        let acts = self.told == Told::WatchdogActs;
        Some(match self.after.get(HALT) {
            0 => return None,
            1 => "halted, since MSR[UIE] and MSR[ME] are 0".into(),
            2 => "halted with 2, since DBCR[RST] was written 11".into(),
            3 => "halted with 3, since DBCR[TRAP] is 1".into(),
            4 => "halted with 4, since TCR[WRC] was 11".into(),
            _ if acts => "halted with 5, since TCR[WRC] asked for a reset; the bench plays none".into(),
            _ => "halted with 5, since DBCR[RST] asked for a reset; the bench plays none".into(),
        })
    }

    /// The last step of a run that halted, in a sentence.
    pub fn end(&self, symbols: &Symbols) -> String {
        let at = symbols.place(self.before.get(IAR));
        let did = match self.told {
            Told::Faults(fault) => self.fault(fault, symbols),
            Told::WatchdogActs => format!("the watchdog acted before the word at {at}"),
            _ if self.after.get(HALT) == 3 => format!("trap by the word at {at}"),
            _ => format!("DBCR was written by the word at {at}"),
        };
        format!("{did}, step {}; {}", self.number, self.halted().unwrap_or_default())
    }

    /// Whether it was executed and IAR went on to the next word.
    pub fn goes_on(&self) -> bool {
        self.told == Told::Executes && self.after.get(IAR) == self.before.get(IAR).wrapping_add(4)
    }
}

/// A word is the usual access; others are named.
fn width(bytes: u32) -> &'static str {
    match bytes {
        1 => ", a byte,",
        2 => ", a halfword,",
        8 => ", a doubleword,",
        _ => "",
    }
}
