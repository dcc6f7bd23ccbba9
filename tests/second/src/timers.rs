//! The event byte: the decrementer, the two timers and ISR[EP] (the manual, section 5 and 8.10.9).

use crate::registers::{bit, isr, tcr, tsr, Core};

/// Values of an event byte; timer input n is TIMER_0 shifted left by n.
pub const EXTERNAL: u8 = 1;
const DECREMENTER: u8 = 2;
const TIMER_0: u8 = 4;

/// What the watchdog does to the step.
#[derive(Clone, Copy, PartialEq, Eq)]
pub enum Watchdog {
    Quiet,
    Halt,
    Reset,
}

impl Core {
    /// Line 2 of a step.
    pub(crate) fn apply(&mut self, event: u8) -> Watchdog {
        if self.counts(event) {
            self.set_dec(self.dec.wrapping_sub(1));
        }
        if event & TIMER_0 << ((self.tcr & tcr::FP) >> tcr::FP_SHIFT) != 0 {
            self.tsr |= tsr::FIS;
        }
        let watchdog = if event & TIMER_0 << ((self.tcr & tcr::WP) >> tcr::WP_SHIFT) != 0 {
            self.watchdog_event()
        } else {
            Watchdog::Quiet
        };
        self.work_out_ep(event);
        watchdog
    }

    /// Whether DEC counts, by TCR[DS]. Its second bit is reserved on the 42, so that 0 and 2 are all that occur there.
    fn counts(&self, event: u8) -> bool {
        match (self.tcr & tcr::DS) >> tcr::DS_SHIFT {
            0 => true,
            1 => event & TIMER_0 << 1 != 0,
            2 => event & DECREMENTER != 0,
            _ => event & TIMER_0 << 3 != 0,
        }
    }

    /// DEC takes a value; its bit 0 going from 0 to 1 is the decrementer's event.
    pub(crate) fn set_dec(&mut self, value: u32) {
        if !self.dec & value & bit(0) != 0 {
            self.tsr |= tsr::DIS;
        }
        self.dec = value;
    }

    /// Table 1.25.
    fn watchdog_event(&mut self) -> Watchdog {
        let action = self.tcr & tcr::WRC;
        if self.tsr & tsr::ENW == 0 {
            self.tsr |= tsr::ENW;
        } else if self.tsr & tsr::WIS == 0 {
            self.tsr |= tsr::WIS;
        } else if action != 0 {
            self.tsr = self.tsr & !tsr::WRS | action;
            self.tcr &= !tcr::WRC;
            return if action == tcr::WRC { Watchdog::Halt } else { Watchdog::Reset };
        }
        Watchdog::Quiet
    }

    fn work_out_ep(&mut self, event: u8) {
        let pending = event & EXTERNAL != 0
            || self.watchdog_pending()
            || self.fixed_interval_pending()
            || self.decrementer_pending();
        self.isr = self.isr & !isr::EP | if pending { isr::EP } else { 0 };
    }

    pub(crate) fn watchdog_pending(&self) -> bool {
        self.tcr & tcr::WIE != 0 && self.tsr & tsr::WIS != 0
    }

    pub(crate) fn fixed_interval_pending(&self) -> bool {
        self.tcr & tcr::FIE != 0 && self.tsr & tsr::FIS != 0
    }

    pub(crate) fn decrementer_pending(&self) -> bool {
        self.tcr & tcr::DIE != 0 && self.tsr & tsr::DIS != 0
    }
}
