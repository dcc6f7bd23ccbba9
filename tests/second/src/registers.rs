//! The registers, in the order of a capture, and the bits that the manual's section 8.10 defines in each.

use crate::profile::Profile;

/// The bit that the manual numbers `n`, counting from the left.
pub const fn bit(n: u32) -> u32 {
    1 << (31 - n)
}

/// The numbers of the sixteen general purpose registers, in the order of a capture.
pub const GPRS: [usize; 16] = [0, 1, 2, 3, 4, 5, 6, 7, 8, 9, 10, 13, 28, 29, 30, 31];

/// Words of a state record: sixteen registers, eighteen others, IAR and halt code.
pub const WORDS: usize = 36;

pub mod cr {
    use super::bit;
    pub const DEFINED: u32 = LT | GT | EQ | SO;
    pub const LT: u32 = bit(0);
    pub const GT: u32 = bit(1);
    pub const EQ: u32 = bit(2);
    pub const SO: u32 = bit(3);
}

pub mod dbcr {
    use super::{bit, Profile};
    /// Those that both cores define.
    const COMMON: u32 = RST | TRAP | IACE | DACE;
    pub const RST: u32 = bit(2) | bit(3);
    pub const TRAP: u32 = bit(7);
    pub const IACE: u32 = bit(8);
    pub const DACE: u32 = bit(12) | bit(13);
    /// ACS, ZACE, HDFI and HDFT, which the 42X alone defines.
    pub const OF_42X: u32 = bit(24) | bit(25) | bit(29) | bit(30) | bit(31);
    /// The right end of RST, as a shift.
    pub const RST_SHIFT: u32 = 28;

    pub const fn defined(profile: Profile) -> u32 {
        match profile {
            Profile::Ppe42 => COMMON,
            Profile::Ppe42x => COMMON | OF_42X,
        }
    }
}

pub mod isr {
    use super::bit;
    pub const DEFINED: u32 = SRSMS | EP | PTR | ST | MFE | MCS;
    pub const SRSMS: u32 = 0x0000_F000;
    pub const EP: u32 = bit(21);
    pub const PTR: u32 = bit(24);
    pub const ST: u32 = bit(25);
    pub const MFE: u32 = bit(28);
    pub const MCS: u32 = 0x0000_0007;
}

pub mod ivpr {
    pub const DEFINED: u32 = 0xFFFF_FE00;
}

pub mod msr {
    use super::bit;
    pub const DEFINED: u32 = SEM | IS0 | SIBRC | LP | WE | IS1 | UIE | EE | ME | IS2 | IS3 | IPE | SIBRCA;
    pub const SEM: u32 = 0x7F00_0000;
    pub const IS0: u32 = bit(8);
    pub const SIBRC: u32 = bit(9) | bit(10) | bit(11);
    pub const LP: u32 = bit(12);
    pub const WE: u32 = bit(13);
    pub const IS1: u32 = bit(14);
    pub const UIE: u32 = bit(15);
    pub const EE: u32 = bit(16);
    pub const ME: u32 = bit(19);
    pub const IS2: u32 = bit(20);
    pub const IS3: u32 = bit(21);
    pub const IPE: u32 = bit(23);
    pub const SIBRCA: u32 = 0x0000_00FF;
}

pub mod pir {
    pub const DEFINED: u32 = 0x0000_FFFF;
}

pub mod srr0 {
    pub const DEFINED: u32 = 0xFFFF_FFFC;
}

pub mod tcr {
    use super::{bit, Profile};
    /// Those that both cores define.
    const COMMON: u32 = WP | WRC | WIE | DIE | FP | FIE | DS_INPUT;
    pub const WP: u32 = bit(0) | bit(1);
    pub const WRC: u32 = bit(2) | bit(3);
    pub const WIE: u32 = bit(4);
    pub const DIE: u32 = bit(5);
    pub const FP: u32 = bit(6) | bit(7);
    pub const FIE: u32 = bit(8);
    pub const DS: u32 = bit(9) | bit(10);
    /// DS that has DEC count on its own input.
    pub const DS_INPUT: u32 = bit(9);
    /// The second bit of DS, which the 42X alone defines.
    pub const OF_42X: u32 = bit(10);
    pub const WP_SHIFT: u32 = 30;
    pub const FP_SHIFT: u32 = 24;
    pub const DS_SHIFT: u32 = 21;

    pub const fn defined(profile: Profile) -> u32 {
        match profile {
            Profile::Ppe42 => COMMON,
            Profile::Ppe42x => COMMON | OF_42X,
        }
    }
}

pub mod tsr {
    use super::bit;
    pub const DEFINED: u32 = ENW | WIS | WRS | DIS | FIS;
    pub const ENW: u32 = bit(0);
    pub const WIS: u32 = bit(1);
    /// In the same place as TCR[WRC], which is copied here.
    pub const WRS: u32 = bit(2) | bit(3);
    pub const DIS: u32 = bit(4);
    pub const FIS: u32 = bit(5);
}

pub mod xer {
    use super::bit;
    pub const DEFINED: u32 = SO | OV | CA;
    pub const SO: u32 = bit(0);
    pub const OV: u32 = bit(1);
    pub const CA: u32 = bit(2);
}

const ALL: u32 = u32::MAX;

/// The eighteen other registers in the order of a capture, each with its defined bits.
pub const fn others(profile: Profile) -> [(&'static str, u32); 18] {
    [
        ("CR", cr::DEFINED),
        ("CTR", ALL),
        ("DACR", ALL),
        ("DBCR", dbcr::defined(profile)),
        ("DEC", ALL),
        ("EDR", ALL),
        ("ISR", isr::DEFINED),
        ("IVPR", ivpr::DEFINED),
        ("LR", ALL),
        ("MSR", msr::DEFINED),
        ("PIR", pir::DEFINED),
        ("PVR", ALL),
        ("SPRG0", ALL),
        ("SRR0", srr0::DEFINED),
        ("SRR1", msr::DEFINED),
        ("TCR", tcr::defined(profile)),
        ("TSR", tsr::DEFINED),
        ("XER", xer::DEFINED),
    ]
}

/// A core's registers, each general purpose register under its own number.
#[derive(Clone, Debug, PartialEq, Eq)]
pub struct Core {
    pub gpr: [u32; 32],
    pub cr: u32,
    pub ctr: u32,
    pub dacr: u32,
    pub dbcr: u32,
    pub dec: u32,
    pub edr: u32,
    pub isr: u32,
    pub ivpr: u32,
    pub lr: u32,
    pub msr: u32,
    pub pir: u32,
    pub pvr: u32,
    pub sprg0: u32,
    pub srr0: u32,
    pub srr1: u32,
    pub tcr: u32,
    pub tsr: u32,
    pub xer: u32,
    pub iar: u32,
    pub halt: u32,
}

impl Core {
    pub fn from_words(words: &[u32; WORDS]) -> Core {
        let mut gpr = [0; 32];
        for (number, word) in GPRS.into_iter().zip(words) {
            gpr[number] = *word;
        }
        let [cr, ctr, dacr, dbcr, dec, edr, isr, ivpr, lr, msr, pir, pvr, sprg0, srr0, srr1, tcr, tsr, xer, iar, halt] =
            *words.last_chunk().expect("twenty of the thirty-six");
        Core {
            gpr,
            cr,
            ctr,
            dacr,
            dbcr,
            dec,
            edr,
            isr,
            ivpr,
            lr,
            msr,
            pir,
            pvr,
            sprg0,
            srr0,
            srr1,
            tcr,
            tsr,
            xer,
            iar,
            halt,
        }
    }

    pub fn to_words(&self) -> [u32; WORDS] {
        let others = [
            self.cr, self.ctr, self.dacr, self.dbcr, self.dec, self.edr, self.isr, self.ivpr, self.lr, self.msr,
            self.pir, self.pvr, self.sprg0, self.srr0, self.srr1, self.tcr, self.tsr, self.xer, self.iar, self.halt,
        ];
        std::array::from_fn(|i| if i < GPRS.len() { self.gpr[GPRS[i]] } else { others[i - GPRS.len()] })
    }
}
