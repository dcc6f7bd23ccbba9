//! Interrupts: which asynchronous one is due, and how each is taken (the manual, section 4).

use crate::profile::Profile;
use crate::registers::{isr, msr, Core};
use crate::timers::EXTERNAL;

/// The interrupts that instructions do not cause, by priority (4.3.2).
#[derive(Clone, Copy, Debug, PartialEq, Eq)]
pub enum Asynchronous {
    Watchdog,
    External,
    FixedInterval,
    Decrementer,
}

/// The interrupts that an instruction causes, with what they leave in EDR and ISR.
#[derive(Clone, Copy, Debug, PartialEq, Eq)]
pub enum Fault {
    InstructionStorage,
    Program { word: u32, trap: bool },
    DataStorage { address: u32, store: bool },
    Alignment { address: u32, store: bool },
}

/// What MSR[UIE] and MSR[ME] make of a fault.
#[derive(Clone, Copy, Debug, PartialEq, Eq)]
pub enum Taken {
    Plainly,
    Promoted,
    Halting,
}

/// Halt code of a machine check or promoted interrupt with MSR[ME] zero.
const UNTAKEN: u32 = 1;

impl Asynchronous {
    fn vector(self) -> u32 {
        match self {
            Asynchronous::External => 0x0A0,
            Asynchronous::Decrementer => 0x100,
            Asynchronous::FixedInterval => 0x120,
            Asynchronous::Watchdog => 0x140,
        }
    }
}

impl Fault {
    fn vector(self) -> u32 {
        match self {
            Fault::DataStorage { .. } => 0x060,
            Fault::InstructionStorage => 0x080,
            Fault::Alignment { .. } => 0x0C0,
            Fault::Program { .. } => 0x0E0,
        }
    }

    /// ISR[MCS] after promotion (Table 1.14).
    fn status(self) -> u32 {
        match self {
            Fault::Program { .. } => 4,
            Fault::InstructionStorage => 5,
            Fault::Alignment { .. } => 6,
            Fault::DataStorage { .. } => 7,
        }
    }
}

impl Core {
    /// The asynchronous interrupt that is due, if any.
    pub(crate) fn due(&self, event: u8) -> Option<Asynchronous> {
        if self.msr & msr::EE == 0 {
            None
        } else if self.watchdog_pending() {
            Some(Asynchronous::Watchdog)
        } else if event & EXTERNAL != 0 {
            Some(Asynchronous::External)
        } else if self.fixed_interval_pending() {
            Some(Asynchronous::FixedInterval)
        } else if self.decrementer_pending() {
            Some(Asynchronous::Decrementer)
        } else {
            None
        }
    }

    pub(crate) fn interrupt(&mut self, cause: Asynchronous) {
        self.enter(cause.vector(), msr::ME | msr::SIBRC);
    }

    pub(crate) fn fault(&mut self, profile: Profile, fault: Fault) -> Taken {
        self.note(fault);
        if self.msr & msr::UIE != 0 {
            self.enter(fault.vector(), msr::ME | msr::SIBRC);
            Taken::Plainly
        } else if self.msr & msr::ME != 0 {
            self.isr = self.isr & !(isr::MFE | isr::MCS) | fault.status();
            self.enter(profile.machine_check(), msr::SIBRC);
            Taken::Promoted
        } else {
            self.enter(fault.vector(), msr::ME | msr::SIBRC);
            self.halt = UNTAKEN;
            Taken::Halting
        }
    }

    /// EDR and the ISR bit that the fault itself sets or clears.
    fn note(&mut self, fault: Fault) {
        match fault {
            Fault::InstructionStorage => {}
            Fault::Program { word, trap } => {
                self.edr = word;
                self.isr = self.isr & !isr::PTR | if trap { isr::PTR } else { 0 };
            }
            Fault::DataStorage { address, store } | Fault::Alignment { address, store } => {
                self.edr = address;
                self.isr = self.isr & !isr::ST | if store { isr::ST } else { 0 };
            }
        }
    }

    /// The part that all interrupts share; `kept` are the bits of MSR that outlast it.
    fn enter(&mut self, vector: u32, kept: u32) {
        self.srr0 = self.iar;
        self.srr1 = self.msr;
        self.msr &= kept;
        self.iar = self.ivpr | vector;
    }
}
