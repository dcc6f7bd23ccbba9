//! The special purpose registers as mfspr and mtspr see them (the manual, 8.6 and 8.10).

use crate::profile::Profile;
use crate::registers::{dbcr, isr, msr, srr0, tcr, tsr, xer, Core};
use crate::word::spr;

/// Halt codes of a write to DBCR[RST].
const HALT_WRITTEN: u32 = 2;
const RESET_WRITTEN: u32 = 5;

impl Core {
    pub(crate) fn read_spr(&self, number: u32) -> u32 {
        match number {
            spr::XER => self.xer,
            spr::LR => self.lr,
            spr::CTR => self.ctr,
            spr::DEC => self.dec,
            spr::SRR0 => self.srr0,
            spr::SRR1 => self.srr1,
            spr::EDR => self.edr,
            spr::ISR => self.isr,
            spr::IVPR => self.ivpr,
            spr::SPRG0 => self.sprg0,
            spr::PIR => self.pir,
            spr::PVR => self.pvr,
            // RST reads as 00, whatever a given state holds there.
            spr::DBCR => self.dbcr & !dbcr::RST,
            spr::DACR => self.dacr,
            spr::TSR => self.tsr,
            spr::TCR => self.tcr,
            _ => unreachable!("mfspr of another number is illegal"),
        }
    }

    pub(crate) fn write_spr(&mut self, profile: Profile, number: u32, value: u32) {
        match number {
            spr::XER => self.xer = value & xer::DEFINED,
            spr::LR => self.lr = value,
            spr::CTR => self.ctr = value,
            spr::DEC => self.set_dec(value),
            spr::SRR0 => self.srr0 = value & srr0::DEFINED,
            spr::SRR1 => self.srr1 = value & msr::DEFINED,
            spr::EDR => self.edr = value,
            // EP is read-only.
            spr::ISR => self.isr = self.isr & isr::EP | value & isr::DEFINED & !isr::EP,
            spr::SPRG0 => self.sprg0 = value,
            spr::DBCR => self.write_dbcr(profile, value),
            spr::DACR => self.dacr = value,
            // A one clears.
            spr::TSR => self.tsr &= !(value & tsr::DEFINED),
            spr::TCR => self.tcr = value & tcr::defined(profile),
            _ => unreachable!("mtspr to another number is illegal"),
        }
    }

    fn write_dbcr(&mut self, profile: Profile, value: u32) {
        self.dbcr = value & dbcr::defined(profile) & !dbcr::RST;
        match (value & dbcr::RST) >> dbcr::RST_SHIFT {
            0 => {}
            3 => self.halt = HALT_WRITTEN,
            _ => self.halt = RESET_WRITTEN,
        }
    }
}
