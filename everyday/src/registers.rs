//! The words of a state: names, defined bits and fields, as include/ppe42.h and docs/CORE.md have them. Only for showing and
//! for messages; what a register does is the library's affair.

use crate::library::STATE;
use crate::profile::Profile;

/// A state, big-endian words in the order of `REGISTERS`.
#[derive(Clone, PartialEq)]
pub struct State(pub [u8; STATE]);

impl State {
    pub fn zero() -> State {
        State([0; STATE])
    }

    pub fn get(&self, place: usize) -> u32 {
        let at = 4 * place;
        u32::from_be_bytes([self.0[at], self.0[at + 1], self.0[at + 2], self.0[at + 3]])
    }

    pub fn put(&mut self, place: usize, word: u32) {
        self.0[4 * place..4 * place + 4].copy_from_slice(&word.to_be_bytes());
    }
}

pub struct Register {
    pub name: &'static str,
    of_42: Bits,
    of_42x: Bits,
}

/// The bits of a register that are defined, and the fields that they make.
#[derive(Clone, Copy)]
pub struct Bits {
    pub defined: u32,
    pub fields: &'static [Field],
}

impl Register {
    pub fn bits(&self, profile: Profile) -> Bits {
        match profile {
            Profile::Ppe42 => self.of_42,
            Profile::Ppe42X => self.of_42x,
        }
    }

    const fn but_on_42x(self, defined: u32, fields: &'static [Field]) -> Register {
        Register { of_42x: Bits { defined, fields }, ..self }
    }
}

/// Bits `first` to `last`, bit 0 being the leftmost, and what they mean by their value; what the last says goes for those above
/// it too.
pub struct Field {
    pub name: &'static str,
    pub first: u32,
    pub last: u32,
    means: &'static [&'static str],
}

impl Field {
    pub fn of(&self, word: u32) -> u32 {
        let width = self.last - self.first + 1;
        word >> (31 - self.last) & (u32::MAX >> (32 - width))
    }

    pub fn means(&self, value: u32) -> &'static str {
        self.means[self.means.len().min(value as usize + 1) - 1]
    }
}

const fn field(name: &'static str, first: u32, last: u32, means: &'static [&'static str]) -> Field {
    Field { name, first, last, means }
}

/// One that firmware can write and read and that does nothing.
const fn stored(name: &'static str, first: u32, last: u32) -> Field {
    field(name, first, last, &["", "stored, no effect"])
}

const fn plain(name: &'static str) -> Register {
    with_fields(name, u32::MAX, &[])
}

const fn with_fields(name: &'static str, defined: u32, fields: &'static [Field]) -> Register {
    let bits = Bits { defined, fields };
    Register { name, of_42: bits, of_42x: bits }
}

const MSR_FIELDS: &[Field] = &[
    field("WE", 13, 13, &["does not wait", "waits until an asynchronous interrupt is entered"]),
    field("UIE", 15, 15, &["faults are not taken as such: ME decides", "a fault is taken at its own vector"]),
    field("EE", 16, 16, &["asynchronous interrupts are held back", "asynchronous interrupts are let through"]),
    field("ME", 19, 19, &["with UIE 0, a fault halts the core with 1", "with UIE 0, a fault becomes a machine check"]),
    stored("SEM", 1, 7),
    stored("IS0", 8, 8),
    stored("SIBRC", 9, 11),
    stored("LP", 12, 12),
    stored("IS1", 14, 14),
    stored("IS2", 20, 20),
    stored("IS3", 21, 21),
    stored("IPE", 23, 23),
    stored("SIBRCA", 24, 31),
];

// of DBCR and TCR, those that both profiles have
const RST: Field = field("RST", 2, 3, &["no reset asked for", "acts only when an mtspr writes it"]);
const TRAP: Field = field("TRAP", 7, 7, &["a trap is a program interrupt", "a trap halts the core with 3"]);
const IACE: Field = stored("IACE", 8, 8);
const DACE: Field = stored("DACE", 12, 13);
const WP: Field = field("WP", 0, 1, &["the watchdog goes by timer input 0", "the watchdog goes by this timer input"]);
const WRC: Field =
    field("WRC", 2, 3, &["the watchdog does not act", "when the watchdog acts, 1 and 2 ask for a reset, 3 halts"]);
const WIE: Field = field("WIE", 4, 4, &["", "watchdog interrupt enabled"]);
const DIE: Field = field("DIE", 5, 5, &["", "decrementer interrupt enabled"]);
const FP: Field = field(
    "FP",
    6,
    7,
    &["the fixed interval timer goes by timer input 0", "the fixed interval timer goes by this timer input"],
);
const FIE: Field = field("FIE", 8, 8, &["", "fixed interval timer interrupt enabled"]);
const EVERY_STEP: &str = "DEC counts in every step";

/// The special-purpose registers by the numbers of mfspr and mtspr.
const SPRS: [(u32, &str); 16] = [
    (1, "XER"),
    (8, "LR"),
    (9, "CTR"),
    (22, "DEC"),
    (26, "SRR0"),
    (27, "SRR1"),
    (61, "EDR"),
    (62, "ISR"),
    (63, "IVPR"),
    (272, "SPRG0"),
    (286, "PIR"),
    (287, "PVR"),
    (308, "DBCR"),
    (316, "DACR"),
    (336, "TSR"),
    (340, "TCR"),
];

/// All 36 in the order of enum ppe42_place.
pub const REGISTERS: [Register; 36] = [
    plain("r0"),
    plain("r1"),
    plain("r2"),
    plain("r3"),
    plain("r4"),
    plain("r5"),
    plain("r6"),
    plain("r7"),
    plain("r8"),
    plain("r9"),
    plain("r10"),
    plain("r13"),
    plain("r28"),
    plain("r29"),
    plain("r30"),
    plain("r31"),
    with_fields(
        "CR",
        0xF000_0000,
        &[
            field("LT", 0, 0, &["", "less"]),
            field("GT", 1, 1, &["", "greater"]),
            field("EQ", 2, 2, &["", "equal"]),
            field("SO", 3, 3, &["", "summary overflow"]),
        ],
    ),
    plain("CTR"),
    plain("DACR"),
    with_fields("DBCR", 0x318C_0000, &[RST, TRAP, IACE, DACE]).but_on_42x(
        0x318C_00C7,
        &[
            RST,
            TRAP,
            IACE,
            DACE,
            stored("ACS", 24, 25),
            stored("ZACE", 29, 29),
            stored("HDFI", 30, 30),
            stored("HDFT", 31, 31),
        ],
    ),
    plain("DEC"),
    plain("EDR"),
    with_fields(
        "ISR",
        0x0000_F4CF,
        &[
            stored("SRSMS", 16, 19),
            field("EP", 21, 21, &["", "an external request, or an enabled timer status"]),
            field("PTR", 24, 24, &["", "the last program interrupt was a trap"]),
            field("ST", 25, 25, &["", "the last data storage or alignment interrupt was a store"]),
            field("MFE", 28, 28, &["", "multiple fault error; this core only clears it"]),
            field("MCS", 29, 31, &["", "4 program, 5 instruction storage, 6 alignment, 7 data storage was promoted"]),
        ],
    ),
    with_fields("IVPR", 0xFFFF_FE00, &[]),
    plain("LR"),
    with_fields("MSR", 0x7FFF_9DFF, MSR_FIELDS),
    with_fields("PIR", 0x0000_FFFF, &[]),
    plain("PVR"),
    plain("SPRG0"),
    with_fields("SRR0", 0xFFFF_FFFC, &[]),
    with_fields("SRR1", 0x7FFF_9DFF, &[]),
    with_fields(
        "TCR",
        0xFFC0_0000,
        &[WP, WRC, WIE, DIE, FP, FIE, field("DS", 9, 9, &[EVERY_STEP, "DEC counts on its input only"])],
    )
    .but_on_42x(
        0xFFE0_0000,
        &[
            WP,
            WRC,
            WIE,
            DIE,
            FP,
            FIE,
            field(
                "DS",
                9,
                10,
                &[
                    EVERY_STEP,
                    "DEC counts on timer input 1 only",
                    "DEC counts on the decrementer input only",
                    "DEC counts on timer input 3 only",
                ],
            ),
        ],
    ),
    with_fields(
        "TSR",
        0xFC00_0000,
        &[
            field("ENW", 0, 0, &["", "a first watchdog event came"]),
            field("WIS", 1, 1, &["", "a second watchdog event came"]),
            field("WRS", 2, 3, &["", "WRC of the watchdog's last action"]),
            field("DIS", 4, 4, &["", "the decrementer went below 0"]),
            field("FIS", 5, 5, &["", "the fixed interval timer came"]),
        ],
    ),
    with_fields(
        "XER",
        0xE000_0000,
        &[
            field("SO", 0, 0, &["", "summary overflow"]),
            field("OV", 1, 1, &["", "overflow"]),
            field("CA", 2, 2, &["", "carry"]),
        ],
    ),
    plain("IAR"),
    plain("halt"),
];

pub const DBCR: usize = 19;
pub const DEC: usize = 20;
pub const EDR: usize = 21;
pub const MSR: usize = 25;
#[cfg(test)]
const TCR: usize = 31;
pub const IAR: usize = 34;
pub const HALT: usize = 35;

/// MSR[WE] and [UIE].
pub const WE: u32 = 0x0004_0000;
pub const UIE: u32 = 0x0001_0000;

/// The highest halt code.
pub const MOST_HALT: u32 = 5;

/// A halt code in words.
pub fn halt_words(code: u32) -> &'static str {
    match code {
        0 => "0: the core can go on",
        1 => "1: a fault with MSR[UIE] and MSR[ME] 0",
        2 => "2: DBCR[RST] was written 11",
        3 => "3: a trap with DBCR[TRAP] 1",
        4 => "4: the watchdog halted it",
        _ => "5: a reset was asked for, by DBCR[RST] or the watchdog; the bench plays none",
    }
}

pub fn place_of(name: &str) -> Option<usize> {
    REGISTERS.iter().position(|register| register.name.eq_ignore_ascii_case(name))
}

pub fn spr_name(number: u32) -> Option<&'static str> {
    SPRS.iter().find(|&&(known, _)| known == number).map(|&(_, name)| name)
}

pub fn names() -> String {
    REGISTERS.iter().map(|register| register.name).collect::<Vec<_>>().join(" ")
}

/// The places whose words differ.
pub fn changed(old: &State, new: &State) -> Vec<usize> {
    (0..REGISTERS.len()).filter(|&place| old.get(place) != new.get(place)).collect()
}

#[cfg(test)]
mod tests {
    use super::*;

    /// What the library takes of a state with one bit set.
    #[test]
    fn defined_bits_are_the_library_s() {
        let places = || (0..REGISTERS.len()).filter(|&place| place != IAR && place != HALT);
        for (profile, place) in
            Profile::BOTH.into_iter().flat_map(|profile| places().map(move |place| (profile, place)))
        {
            let register = &REGISTERS[place];
            let taken = |bit: &u32| {
                let mut state = State::zero();
                state.put(place, *bit);
                profile.start_check(&state, &[0; 32]).is_ok()
            };
            let defined: u32 = (0..32).map(|bit| 1 << bit).filter(taken).sum();
            assert_eq!(register.bits(profile).defined, defined, "{} of a {}", register.name, profile.name());
        }
    }

    /// Fields lie in the defined bits and over no other, and there are no more meanings than values.
    #[test]
    fn fields_are_defined_and_apart() {
        for (profile, register) in
            REGISTERS.iter().flat_map(|register| Profile::BOTH.map(|profile| (profile, register)))
        {
            let Bits { defined, fields } = register.bits(profile);
            let masks = fields.iter().map(|field| u32::MAX >> field.first & u32::MAX << (31 - field.last));
            let all: u64 = masks.map(u64::from).sum();
            assert!(fields.is_empty() || all == u64::from(defined), "{}", register.name);
            assert!(fields.iter().all(|field| field.means.len() <= 1 << (field.last - field.first + 1)));
        }
    }

    /// What show says of TCR[DS], beside the event bytes on which DEC counts.
    #[test]
    fn ds_is_what_dec_counts_on() {
        let inputs = [("decrementer input", 2), ("input only", 2), ("timer input 1", 8), ("timer input 3", 32)];
        for (profile, ds) in
            [(Profile::Ppe42, 0), (Profile::Ppe42, 2)].into_iter().chain((0..4).map(|ds| (Profile::Ppe42X, ds)))
        {
            let tcr = ds << 21;
            let field = REGISTERS[TCR].bits(profile).fields.last().unwrap();
            let said = field.means(field.of(tcr));
            let input = inputs.iter().find(|(words, _)| said.contains(words)).map(|&(_, byte)| byte);
            for event in 0..64 {
                let mut state = State::zero();
                state.put(TCR, tcr);
                state.put(DEC, 5);
                profile.step(&mut state, &mut [0; 32], event).unwrap();
                let counts = input.map_or(true, |input| event & input != 0);
                assert_eq!(state.get(DEC), 5 - u32::from(counts), "{said}, event {event}");
            }
        }
    }
}
