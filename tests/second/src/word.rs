//! Reading a word: its fields, and which of the manual's instructions it is.

use crate::profile::Profile;
use crate::registers::GPRS;

macro_rules! kinds {
    ($($kind:ident $mnemonic:literal),* $(,)?) => {
        /// The 94 instructions of the manual's 9.4 that the bench core plays; seven are the 42X's alone.
        #[derive(Clone, Copy, Debug, PartialEq, Eq)]
        pub enum Kind { $($kind),* }

        impl Kind {
            pub const ALL: [Kind; 94] = [$(Kind::$kind),*];

            pub fn mnemonic(self) -> &'static str {
                match self { $(Kind::$kind => $mnemonic),* }
            }
        }
    };
}

kinds! {
    Add "add", Addc "addc", Adde "adde", Addi "addi", Addic "addic", AddicRecord "addic.", Addis "addis",
    Addme "addme", Addze "addze", And "and", Andc "andc", Andi "andi.", Andis "andis.",
    B "b", Bc "bc", Bcctr "bcctr", Bclr "bclr",
    Cmplw "cmplw", Cmplwi "cmplwi", Cmpw "cmpw", Cmpwi "cmpwi", Cntlzw "cntlzw",
    Dcbf "dcbf", Dcbi "dcbi", Dcbt "dcbt", Dcbz "dcbz", Eqv "eqv", Extsb "extsb", Extsh "extsh",
    Lbz "lbz", Lbzu "lbzu", Lbzx "lbzx", Lhz "lhz", Lhzu "lhzu", Lhzx "lhzx", Lsku "lsku", Lvd "lvd", Lvdu "lvdu",
    Lwz "lwz", Lwzu "lwzu", Lwzx "lwzx",
    Mfcr "mfcr", Mfmsr "mfmsr", Mfspr "mfspr", Mtcr0 "mtcr0", Mtmsr "mtmsr", Mtspr "mtspr",
    Mullhw "mullhw", Mullhwu "mullhwu", Mulli "mulli", Mullw "mullw",
    Nand "nand", Neg "neg", Nor "nor", Or "or", Orc "orc", Ori "ori", Oris "oris",
    Rfi "rfi", Rldicl "rldicl", Rldicr "rldicr", Rldimi "rldimi", Rlwimi "rlwimi", Rlwinm "rlwinm", Rlwnm "rlwnm",
    Slw "slw", Sraw "sraw", Srawi "srawi", Srw "srw",
    Stb "stb", Stbu "stbu", Stbx "stbx", Sth "sth", Sthu "sthu", Sthx "sthx",
    Stsku "stsku", Stvd "stvd", Stvdu "stvdu",
    Stw "stw", Stwu "stwu", Stwx "stwx",
    Subf "subf", Subfc "subfc", Subfe "subfe", Subfic "subfic", Subfme "subfme", Subfze "subfze",
    Sync "sync", Tw "tw", Wrtee "wrtee", Wrteei "wrteei", Xor "xor", Xori "xori", Xoris "xoris",
}

/// SPR numbers (Table 1.34).
pub mod spr {
    pub const XER: u32 = 1;
    pub const LR: u32 = 8;
    pub const CTR: u32 = 9;
    pub const DEC: u32 = 22;
    pub const SRR0: u32 = 26;
    pub const SRR1: u32 = 27;
    pub const EDR: u32 = 61;
    pub const ISR: u32 = 62;
    pub const IVPR: u32 = 63;
    pub const SPRG0: u32 = 272;
    pub const PIR: u32 = 286;
    pub const PVR: u32 = 287;
    pub const DBCR: u32 = 308;
    pub const DACR: u32 = 316;
    pub const TSR: u32 = 336;
    pub const TCR: u32 = 340;

    pub fn readable(number: u32) -> bool {
        writable(number) || matches!(number, IVPR | PIR | PVR)
    }

    pub fn writable(number: u32) -> bool {
        matches!(number, XER | LR | CTR | DEC | SRR0 | SRR1 | EDR | ISR | SPRG0 | DBCR | DACR | TSR | TCR)
    }
}

const SYNC: u32 = 0x7C00_04AC;
const RFI: u32 = 0x4C00_0064;
const WRTEEI: u32 = 0x7C00_0146;
const WRTEEI_E: u32 = 0x0000_8000;

/// One bit for each defined register number, register 0 rightmost.
const DEFINED: u32 = {
    let mut set = 0;
    let mut i = 0;
    while i < GPRS.len() {
        set |= 1 << GPRS[i];
        i += 1;
    }
    set
};

fn is_defined(register: usize) -> bool {
    DEFINED >> register & 1 == 1
}

/// The low-order register of the pair that a register begins: the next one, and 0 after 31 (8.4).
pub fn low_of(first: usize) -> usize {
    (first + 1) % 32
}

/// A word with the fields that Power ISA 2.07 gives it.
#[derive(Clone, Copy, Debug, PartialEq, Eq)]
pub struct Word(pub u32);

impl Word {
    /// Bits `first` to `last`, counted from the left.
    fn field(self, first: u32, last: u32) -> u32 {
        self.0 << first >> (31 - last + first)
    }

    fn flag(self, place: u32) -> bool {
        self.field(place, place) == 1
    }

    /// RT or RS; of DT or DS the first register, which has the high-order word.
    pub fn rt(self) -> usize {
        self.field(6, 10) as usize
    }

    /// The low-order register of DT or DS.
    pub fn rt_low(self) -> usize {
        low_of(self.rt())
    }

    /// RA; of DA the first register.
    pub fn ra(self) -> usize {
        self.field(11, 15) as usize
    }

    pub fn rb(self) -> usize {
        self.field(16, 20) as usize
    }

    pub fn oe(self) -> bool {
        self.flag(21)
    }

    pub fn rc(self) -> bool {
        self.flag(31)
    }

    /// SI or D, extended by its sign.
    pub fn si(self) -> u32 {
        self.0 as u16 as i16 as u32
    }

    pub fn ui(self) -> u32 {
        self.0 as u16 as u32
    }

    pub fn sh(self) -> u32 {
        self.field(16, 20)
    }

    pub fn mb(self) -> u32 {
        self.field(21, 25)
    }

    pub fn me(self) -> u32 {
        self.field(26, 30)
    }

    /// SH of the doubleword rotates, whose high-order bit stands apart.
    pub fn long_sh(self) -> u32 {
        self.field(30, 30) << 5 | self.field(16, 20)
    }

    /// MB or ME of the doubleword rotates, whose high-order bit stands last.
    pub fn long_mask(self) -> u32 {
        self.field(26, 26) << 5 | self.field(21, 25)
    }

    /// DD as it stands, without its sign (Table 1.71).
    pub fn dd(self) -> u32 {
        self.field(16, 28)
    }

    /// DD with three zeros on its right, extended by its sign.
    pub fn frame(self) -> u32 {
        self.si() & !7
    }

    pub fn to(self) -> u32 {
        self.field(6, 10)
    }

    /// TG of tw, which stands where others have Rc.
    pub fn tg(self) -> bool {
        self.flag(31)
    }

    /// Bit `place` of BO, counted from the left.
    pub fn bo(self, place: u32) -> bool {
        self.flag(6 + place)
    }

    pub fn bi(self) -> u32 {
        self.field(11, 15)
    }

    pub fn aa(self) -> bool {
        self.flag(30)
    }

    pub fn lk(self) -> bool {
        self.flag(31)
    }

    /// LI with two zeros on its right, extended by its sign.
    pub fn li(self) -> u32 {
        ((self.0 as i32) << 6 >> 6) as u32 & !3
    }

    /// BD with two zeros on its right, extended by its sign.
    pub fn bd(self) -> u32 {
        self.si() & !3
    }

    /// The SPR number, whose halves stand in the word in reverse order.
    pub fn spr(self) -> u32 {
        self.field(16, 20) << 5 | self.field(11, 15)
    }

    /// E of wrteei.
    pub fn e(self) -> bool {
        self.flag(16)
    }

    /// The instruction that the word is, or nothing if it is illegal.
    pub fn kind(self, profile: Profile) -> Option<Kind> {
        self.kind_of_any(profile).filter(|kind| profile.has(*kind))
    }

    /// The same of all instructions, those that the core lacks too. Primary opcodes 5, 6, 9 and 22 are those of Table
    /// 1.68, 58 and 62 those of Table 1.69, the others Power ISA's.
    fn kind_of_any(self, profile: Profile) -> Option<Kind> {
        use Kind::*;
        let (kind, valid) = match self.field(0, 5) {
            4 => return self.kind_of_4(),
            5 => (Lvd, self.two() && self.paired()),
            6 => (Stvd, self.two() && self.paired()),
            7 => (Mulli, self.two()),
            8 => (Subfic, self.two()),
            9 => (Lvdu, self.updating_load() && self.paired() && self.ra() != self.rt_low()),
            10 => (Cmplwi, self.compares() && self.defined(11)),
            11 => (Cmpwi, self.compares() && self.defined(11)),
            12 => (Addic, self.two()),
            13 => (AddicRecord, self.two()),
            14 => (Addi, self.two()),
            15 => (Addis, self.two()),
            16 => (Bc, self.tests_cr0()),
            18 => (B, true),
            19 => return self.kind_of_19(),
            20 => (Rlwimi, self.two()),
            21 => (Rlwinm, self.two()),
            22 => (Stvdu, self.updating_store() && self.paired()),
            23 => (Rlwnm, self.three()),
            24 => (Ori, self.two()),
            25 => (Oris, self.two()),
            26 => (Xori, self.two()),
            27 => (Xoris, self.two()),
            28 => (Andi, self.two()),
            29 => (Andis, self.two()),
            30 => return self.kind_of_30(),
            31 => return self.kind_of_31(profile),
            32 => (Lwz, self.two()),
            33 => (Lwzu, self.updating_load()),
            34 => (Lbz, self.two()),
            35 => (Lbzu, self.updating_load()),
            36 => (Stw, self.two()),
            37 => (Stwu, self.updating_store()),
            38 => (Stb, self.two()),
            39 => (Stbu, self.updating_store()),
            40 => (Lhz, self.two()),
            41 => (Lhzu, self.updating_load()),
            44 => (Sth, self.two()),
            45 => (Sthu, self.updating_store()),
            58 => (Lsku, self.stack_frame() && self.clear(16, 16) && !self.clear(16, 28)),
            62 => (Stsku, self.stack_frame() && !self.clear(16, 16)),
            _ => return None,
        };
        valid.then_some(kind)
    }

    fn kind_of_4(self) -> Option<Kind> {
        let kind = match self.field(21, 30) {
            392 => Kind::Mullhwu,
            424 => Kind::Mullhw,
            _ => return None,
        };
        self.three().then_some(kind)
    }

    fn kind_of_19(self) -> Option<Kind> {
        let (kind, valid) = match self.field(21, 30) {
            16 => (Kind::Bclr, self.tests_cr0() && self.clear(16, 18)),
            528 => (Kind::Bcctr, self.tests_cr0() && self.clear(16, 18) && self.bo(2)),
            50 => (Kind::Rfi, self.0 == RFI),
            _ => return None,
        };
        valid.then_some(kind)
    }

    fn kind_of_30(self) -> Option<Kind> {
        let kind = match self.field(27, 29) {
            0 => Kind::Rldicl,
            1 => Kind::Rldicr,
            3 => Kind::Rldimi,
            _ => return None,
        };
        (self.two() && self.paired() && is_defined(low_of(self.ra()))).then_some(kind)
    }

    fn kind_of_31(self, profile: Profile) -> Option<Kind> {
        use Kind::*;
        let (kind, valid) = match self.field(21, 30) {
            0 => (Cmpw, self.compares() && self.indexes() && self.plain()),
            4 => (Tw, self.marks(profile) || self.indexes() && matches!(self.to(), 0 | 31)),
            8 | 520 => (Subfc, self.three()),
            10 | 522 => (Addc, self.three()),
            19 => (Mfcr, self.defined(6) && self.clear(11, 20) && self.plain()),
            23 => (Lwzx, self.three() && self.plain()),
            24 => (Slw, self.three()),
            26 => (Cntlzw, self.two() && self.clear(16, 20)),
            28 => (And, self.three()),
            32 => (Cmplw, self.compares() && self.indexes() && self.plain()),
            40 | 552 => (Subf, self.three()),
            60 => (Andc, self.three()),
            83 => (Mfmsr, self.defined(6) && self.clear(11, 20) && self.plain()),
            86 => (Dcbf, self.indexes() && self.clear(6, 8) && self.plain()),
            87 => (Lbzx, self.three() && self.plain()),
            104 | 616 => (Neg, self.two() && self.clear(16, 20)),
            124 => (Nor, self.three()),
            131 => (Wrtee, self.defined(6) && self.clear(11, 20) && self.plain()),
            136 | 648 => (Subfe, self.three()),
            138 | 650 => (Adde, self.three()),
            144 => (Mtcr0, self.defined(6) && self.names_cr0() && self.plain()),
            146 => (Mtmsr, self.defined(6) && self.clear(11, 20) && self.plain()),
            151 => (Stwx, self.three() && self.plain()),
            163 => (Wrteei, self.0 & !WRTEEI_E == WRTEEI),
            200 | 712 => (Subfze, self.two() && self.clear(16, 20)),
            202 | 714 => (Addze, self.two() && self.clear(16, 20)),
            215 => (Stbx, self.three() && self.plain()),
            232 | 744 => (Subfme, self.two() && self.clear(16, 20)),
            234 | 746 => (Addme, self.two() && self.clear(16, 20)),
            235 | 747 => (Mullw, self.three()),
            266 | 778 => (Add, self.three()),
            278 => (Dcbt, self.indexes() && self.plain()),
            279 => (Lhzx, self.three() && self.plain()),
            284 => (Eqv, self.three()),
            316 => (Xor, self.three()),
            339 => (Mfspr, self.defined(6) && spr::readable(self.spr()) && self.plain()),
            407 => (Sthx, self.three() && self.plain()),
            412 => (Orc, self.three()),
            444 => (Or, self.three()),
            467 => (Mtspr, self.defined(6) && spr::writable(self.spr()) && self.plain()),
            470 => (Dcbi, self.indexes() && self.clear(6, 10) && self.plain()),
            476 => (Nand, self.three()),
            536 => (Srw, self.three()),
            598 => (Sync, self.0 == SYNC),
            792 => (Sraw, self.three()),
            824 => (Srawi, self.two()),
            922 => (Extsh, self.two() && self.clear(16, 20)),
            954 => (Extsb, self.two() && self.clear(16, 20)),
            1014 => (Dcbz, self.indexes() && self.clear(6, 10) && self.plain()),
            _ => return None,
        };
        valid.then_some(kind)
    }

    /// The five bits from `first` on name one of the sixteen registers.
    fn defined(self, first: u32) -> bool {
        is_defined(self.field(first, first + 4) as usize)
    }

    fn two(self) -> bool {
        self.defined(6) && self.defined(11)
    }

    /// The register after RT is defined as well, so that RT designates a pair (Table 1.33).
    fn paired(self) -> bool {
        is_defined(self.rt_low())
    }

    /// RA and RB are defined.
    fn indexes(self) -> bool {
        self.defined(11) && self.defined(16)
    }

    fn three(self) -> bool {
        self.defined(6) && self.indexes()
    }

    fn updating_load(self) -> bool {
        self.updating_store() && self.ra() != self.rt()
    }

    fn updating_store(self) -> bool {
        self.two() && self.ra() != 0
    }

    /// DD form: one register in both places, CX 0 and extended opcode 3.
    fn stack_frame(self) -> bool {
        self.updating_store() && self.ra() == self.rt() && self.field(29, 31) == 0b011
    }

    /// A tw that traps on no account, whatever its other fields hold (Table 1.96). The 42 does not look at TG.
    pub(crate) fn marks(self, profile: Profile) -> bool {
        profile.is_42x() && self.tg()
    }

    /// A word compare that sets CR0.
    fn compares(self) -> bool {
        self.clear(6, 10)
    }

    /// BI names a bit of CR0, even where BO does not look at it.
    fn tests_cr0(self) -> bool {
        self.clear(11, 13)
    }

    /// FXM of mtcrf is CR0 alone, and the bits beside it are zero.
    fn names_cr0(self) -> bool {
        self.clear(11, 11) && self.field(12, 19) == 0b1000_0000 && self.clear(20, 20)
    }

    /// No reserved bit 31.
    fn plain(self) -> bool {
        self.clear(31, 31)
    }

    fn clear(self, first: u32, last: u32) -> bool {
        self.field(first, last) == 0
    }
}
