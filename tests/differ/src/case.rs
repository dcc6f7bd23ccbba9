//! Random starts: a state, memory full of instructions, an event list and a budget, now and then spoilt.

use draw::{Form, Urn, FORMS, FORMS_42X};
use second::registers::{cr, dbcr, isr, ivpr, msr, pir, srr0, tcr, tsr, xer, GPRS, WORDS};
use second::{spr, Kind, Profile, Word};
use std::sync::LazyLock;

pub const MOST: u32 = 1_048_576;

/// Steps of a start for both cores, at most.
const COMMON: u32 = 400;

/// Places in a state record.
const DBCR: usize = 19;
pub const IVPR: usize = 23;
const TCR: usize = 31;
pub const IAR: usize = 34;
const HALT: usize = 35;

/// What a run is given.
#[derive(Clone, Debug)]
pub struct Case {
    pub state: Vec<u8>,
    pub memory: Vec<u8>,
    pub events: Vec<u8>,
    pub budget: u32,
}

/// Five sorts of start: one instruction with registers at the edges, one access of a doubleword with registers that are
/// addresses of some, a program whose faults return to it, so that it goes on, one where anything may happen, and on a
/// 42X a frame of the stack, loaded or stored about an end of memory.
#[derive(Clone, Copy, PartialEq, Eq)]
enum Start {
    Single,
    Doubleword,
    Tame,
    Wild,
    Frame,
}

impl Case {
    pub fn draw(profile: Profile, urn: &mut Urn) -> Case {
        let start = match urn.below(if profile.is_42x() { 9 } else { 7 }) {
            0..=2 => Start::Single,
            3 => Start::Doubleword,
            4..=5 => Start::Tame,
            6 => Start::Wild,
            _ => Start::Frame,
        };
        let length = memory_length(urn, start);
        let mut words = draw_state(profile, urn, start, length);
        let budget = draw_budget(urn, start);
        let memory = draw_memory(profile, urn, start, length as usize, &mut words);
        let mut case = Case { state: bytes(&words), memory, events: draw_events(urn, budget), budget };
        if urn.percent(5) {
            for _ in 0..=urn.below(3) {
                spoil(&mut case, urn);
            }
        }
        case
    }

    /// A start that both cores accept: mostly a long tame program of the 42's words, with few that end what the cores
    /// have in common.
    pub fn draw_common(urn: &mut Urn) -> Case {
        let start =
            if urn.percent(90) { Start::Tame } else { urn.pick(&[Start::Single, Start::Doubleword, Start::Wild]) };
        let length = memory_length(urn, start);
        let mut words = draw_state(Profile::Ppe42, urn, start, length);
        let mut memory = draw_memory(Profile::Ppe42, urn, start, length as usize, &mut words);
        if start == Start::Tame {
            put_program(Profile::Ppe42, urn, &mut memory, words[IVPR], 100, 100);
            smooth(urn, &mut memory);
            words[HALT] = 0;
        }
        let budget = 1 + urn.below(COMMON);
        Case { state: bytes(&words), memory, events: draw_events(urn, budget), budget }
    }
}

/// Takes most of the words out of memory that may end what the cores have in common, or the run.
fn smooth(urn: &mut Urn, memory: &mut [u8]) {
    for bytes in memory.chunks_exact_mut(4) {
        let word = Word(u32::from_be_bytes([bytes[0], bytes[1], bytes[2], bytes[3]]));
        let ends = match word.kind(Profile::Ppe42) {
            None | Some(Kind::Mtmsr) => true,
            Some(Kind::Tw) => word.tg() || word.to() != 0,
            Some(Kind::Mtspr) => matches!(word.spr(), spr::DBCR | spr::TCR | spr::SRR1),
            _ => false,
        };
        if ends && urn.percent(95) {
            bytes.copy_from_slice(&ADD_4.to_be_bytes());
        }
    }
}

pub fn bytes(words: &[u32]) -> Vec<u8> {
    words.iter().flat_map(|word| word.to_be_bytes()).collect()
}

fn memory_length(urn: &mut Urn, start: Start) -> u32 {
    let blocks = match (start, urn.below(3000)) {
        (_, 0) => return MOST,
        (Start::Single, _) => 1 + urn.below(4),
        (Start::Doubleword, _) => 1 + urn.below(32),
        (Start::Tame, _) => VECTORS / 32 + urn.below(64),
        (Start::Frame, 1..=300) => 1 + urn.below(2048),
        (Start::Frame, _) => 1 + urn.below(8),
        (_, 1..=600) => 1,
        (_, 601..=1600) => 1 + urn.below(4),
        (_, 1601..=2700) => 1 + urn.below(32),
        _ => 1 + urn.below(128),
    };
    32 * blocks
}

fn draw_budget(urn: &mut Urn, start: Start) -> u32 {
    match (start, urn.below(1000)) {
        (_, 0..=19) => 0,
        (_, 20..=119) => 1,
        (_, 120..=122) => 200 + urn.below(5000),
        (Start::Single | Start::Doubleword | Start::Frame, _) => 1 + urn.below(3),
        (Start::Tame, _) => 1 + urn.below(80),
        (Start::Wild, _) => 1 + urn.below(16),
    }
}

/// State words in the order of a capture.
fn draw_state(profile: Profile, urn: &mut Urn, start: Start, length: u32) -> [u32; WORDS] {
    let mut words = [0; WORDS];
    for word in &mut words[..16] {
        *word = match start {
            Start::Single if urn.percent(75) => urn.value(),
            // The end of memory among them.
            Start::Doubleword if urn.percent(75) => urn.below(length / 8 + 1) * 8,
            Start::Tame if urn.percent(40) => urn.below(length / 8) * 8,
            _ => register(profile, urn, length),
        };
    }
    let others = [
        urn.some_of(cr::DEFINED),
        counter(profile, urn, length),
        urn.value(),
        control(profile, urn),
        decrementer(urn),
        urn.value(),
        urn.some_of(isr::DEFINED),
        prefix(urn, start, length),
        register(profile, urn, length),
        if start == Start::Tame { machine_state(urn) & !msr::WE | msr::UIE } else { machine_state(urn) },
        urn.some_of(pir::DEFINED),
        urn.word(),
        urn.value(),
        register(profile, urn, length) & srr0::DEFINED,
        machine_state(urn),
        timer_control(profile, urn),
        if urn.percent(50) { urn.some_of(tsr::DEFINED) } else { 0 },
        urn.some_of(xer::DEFINED),
        if urn.percent(97) { urn.below(length / 4) * 4 } else { urn.value() & !3 },
        if urn.percent(98) { 0 } else { urn.below(6) },
    ];
    words[16..].copy_from_slice(&others);
    words
}

fn register(profile: Profile, urn: &mut Urn, length: u32) -> u32 {
    match urn.below(20) {
        0..=3 => urn.below(length / 4) * 4,
        4 => urn.below(length / 2) * 2,
        5..=6 => urn.below(length),
        7..=8 => length.wrapping_add(urn.below(80)).wrapping_sub(40),
        9 => urn.below(128),
        10 => machine_state(urn),
        11 => urn.some_of(tcr::defined(profile)),
        12 => control(profile, urn),
        _ => urn.value(),
    }
}

fn counter(profile: Profile, urn: &mut Urn, length: u32) -> u32 {
    if urn.percent(50) {
        urn.below(4)
    } else {
        register(profile, urn, length)
    }
}

fn control(profile: Profile, urn: &mut Urn) -> u32 {
    let reset = if urn.percent(30) { urn.some_of(dbcr::RST) } else { 0 };
    reset | urn.some_of(dbcr::defined(profile) & !dbcr::RST)
}

fn decrementer(urn: &mut Urn) -> u32 {
    match urn.below(4) {
        0 => urn.below(4),
        1 => 0x8000_0000 + urn.below(3) - 1,
        2 => urn.below(64),
        _ => urn.word(),
    }
}

/// From the first vector to the end of the last.
pub const VECTORS: u32 = 0x160;

/// Where the vectors are: inside memory, at its edge or anywhere.
fn prefix(urn: &mut Urn, start: Start, length: u32) -> u32 {
    match start {
        Start::Tame => urn.below((length - VECTORS) / 512 + 1) * 512,
        _ if urn.percent(60) => urn.below(length / 512 + 1) * 512,
        _ => urn.value() & ivpr::DEFINED,
    }
}

fn machine_state(urn: &mut Urn) -> u32 {
    let mut state = urn.some_of(msr::DEFINED & !(msr::WE | msr::UIE | msr::EE | msr::ME));
    for (bit, chance) in [(msr::WE, 6), (msr::UIE, 70), (msr::EE, 35), (msr::ME, 65)] {
        if urn.percent(chance) {
            state |= bit;
        }
    }
    state
}

/// What makes a step without an event more than a count of DEC.
pub const ASKS: u32 = tcr::WIE | tcr::DIE | tcr::FIE | tcr::DS;

/// TCR, every other time with none of these set, as firmware mostly has it.
fn timer_control(profile: Profile, urn: &mut Urn) -> u32 {
    let asked = if urn.percent(50) { ASKS } else { 0 };
    urn.some_of(tcr::defined(profile) & (!ASKS | asked))
}

/// Memory for the state, whose stack pointer is made to fit a frame.
fn draw_memory(profile: Profile, urn: &mut Urn, start: Start, length: usize, words: &mut [u32; WORDS]) -> Vec<u8> {
    let mut memory = vec![0; length];
    urn.fill(&mut memory);
    match start {
        Start::Single => put(&mut memory, words[IAR], &[draw_word(profile, urn)]),
        Start::Doubleword => put(&mut memory, words[IAR], &[urn.pick(&DOUBLEWORDS).draw(urn)]),
        Start::Tame => put_program(profile, urn, &mut memory, words[IVPR], 75, 95),
        Start::Wild => put_program(profile, urn, &mut memory, words[IVPR], 0, 30),
        Start::Frame => put_frame(urn, &mut memory, words),
    }
    memory
}

/// A load or store of a frame at IAR. RA is such that the frame's end where most is accessed, the upper one, or now and
/// then the other comes to be about an end of memory or inside.
fn put_frame(urn: &mut Urn, memory: &mut [u8], words: &mut [u32; WORDS]) {
    let word = Word(urn.pick(&FRAMES).draw(urn));
    put(memory, words[IAR], &[word.0]);
    let end = frame_end(urn, memory.len() as u32);
    let loads = word.kind(Profile::Ppe42x) == Some(Kind::Lsku);
    let at_ea = urn.percent(if loads { 75 } else { 25 });
    let stack = if at_ea { end.wrapping_sub(word.frame()) } else { end };
    if let Some(place) = GPRS.iter().position(|number| *number == word.ra()) {
        words[place] = stack;
    }
}

/// An address that mostly is a multiple of eight and often one of the last or first few.
fn frame_end(urn: &mut Urn, length: u32) -> u32 {
    match urn.below(16) {
        0..=5 => urn.below(length / 8) * 8,
        6..=9 => length.wrapping_add(urn.below(8) * 8).wrapping_sub(32),
        10..=13 => (urn.below(8) * 8).wrapping_sub(24),
        14 => urn.below(length),
        _ => register(Profile::Ppe42x, urn, length),
    }
}

/// Fills memory with words, so many of a hundred surely legal, and puts handlers at so many of a hundred vectors.
fn put_program(profile: Profile, urn: &mut Urn, memory: &mut [u8], vectors: u32, legal: u32, handled: u32) {
    let written = memory.len().min(4096) as u32;
    for address in (0..written).step_by(4) {
        let word = if urn.percent(legal) { draw_form(profile, urn).draw(urn) } else { draw_word(profile, urn) };
        put(memory, address, &[word]);
    }
    for offset in (0..VECTORS).step_by(32).filter(|_| urn.percent(handled)).collect::<Vec<_>>() {
        let handler = if urn.percent(80) { CLEAR_AND_SKIP } else { urn.pick(&[SKIP, RETURN]) };
        put(memory, vectors | offset, handler);
    }
}

/// Writes words where they fall inside memory.
fn put(memory: &mut [u8], address: u32, words: &[u32]) {
    let bytes = bytes(words);
    if let Some(place) = memory.get_mut(address as usize..).and_then(|rest| rest.get_mut(..bytes.len())) {
        place.copy_from_slice(&bytes);
    }
}

/// Handlers that clear all timer status and return past the instruction, that only return past it, or to it.
const CLEAR_AND_SKIP: &[u32] = &[mfspr(31, 336), mtspr(31, 336), mfspr(31, 26), ADD_4, mtspr(31, 26), RFI];
const SKIP: &[u32] = &[mfspr(31, 26), ADD_4, mtspr(31, 26), RFI];
const RETURN: &[u32] = &[RFI];
const ADD_4: u32 = 14 << 26 | 31 << 21 | 31 << 16 | 4;
const RFI: u32 = 0x4C00_0064;
const TRAP: u32 = 0x7FE0_0008;

const fn mfspr(register: u32, number: u32) -> u32 {
    31 << 26 | register << 21 | (number & 31) << 16 | number >> 5 << 11 | 339 << 1
}

const fn mtspr(register: u32, number: u32) -> u32 {
    31 << 26 | register << 21 | (number & 31) << 16 | number >> 5 << 11 | 467 << 1
}

/// Legal for the most part, else near-legal or anything.
pub fn draw_word(profile: Profile, urn: &mut Urn) -> u32 {
    match urn.below(100) {
        0..=82 => draw_form(profile, urn).draw(urn),
        83..=90 => draw_form(profile, urn).draw(urn) ^ 1 << urn.below(32),
        91..=93 => draw_form(profile, urn).draw(urn) ^ urn.below(32) << urn.pick(&[11, 16, 21]),
        94..=95 => TRAP | (profile.is_42x() && urn.percent(50)) as u32,
        96 => urn.value(),
        97 => urn.pick(&OF_42X).draw(urn),
        _ => urn.word(),
    }
}

fn draw_form(profile: Profile, urn: &mut Urn) -> &'static Form {
    let forms = if urn.percent(75) { &FORMS_OF } else { &FAVOURED };
    urn.pick(&forms[profile as usize])
}

/// Of each profile.
type Forms = [Vec<&'static Form>; 2];

static FORMS_OF: LazyLock<Forms> = LazyLock::new(|| [FORMS.iter().collect(), FORMS_42X.clone()]);

/// Those with the most to go wrong.
static FAVOURED: LazyLock<Forms> = LazyLock::new(|| {
    Profile::BOTH.map(|profile| {
        let favoured =
            ["mtspr", "mfspr", "mtmsr", "rfi", "tw", "wrtee", "wrteei", "dcbz", "bc", "bclr", "sraw", "adde"];
        let accesses = ["lbzu", "lhz", "lhzu", "lwz", "lwzu", "lwzx", "sth", "sthu", "stw", "stwu", "stwx"];
        let of_42x = ["mulli", "mullw", "rldicl", "rldicr", "rldimi", "lsku", "stsku"];
        [named(profile, &favoured), named(profile, &accesses), DOUBLEWORDS.clone(), named(profile, &of_42x)].concat()
    })
});

static DOUBLEWORDS: LazyLock<Vec<&'static Form>> =
    LazyLock::new(|| named(Profile::Ppe42, &["lvd", "lvdu", "stvd", "stvdu"]));

/// What the 42X has besides, which both cores are given.
static OF_42X: LazyLock<Vec<&'static Form>> =
    LazyLock::new(|| named(Profile::Ppe42x, &["mulli", "mullw", "rldicl", "rldicr", "rldimi", "lsku", "stsku", "tw"]));

static FRAMES: LazyLock<Vec<&'static Form>> = LazyLock::new(|| named(Profile::Ppe42x, &["lsku", "stsku"]));

pub fn named(profile: Profile, mnemonics: &[&str]) -> Vec<&'static Form> {
    FORMS_OF[profile as usize].iter().copied().filter(|form| mnemonics.contains(&form.mnemonic)).collect()
}

fn draw_events(urn: &mut Urn, budget: u32) -> Vec<u8> {
    let style = urn.below(5);
    let length = if urn.percent(50) { budget } else { urn.below(budget + 8) };
    let event = |_| match style {
        0 => urn.below(64) as u8,
        1 => 1 << urn.below(6),
        2 => (urn.below(64) & urn.below(64) & urn.below(64)) as u8,
        _ => 0,
    };
    (0..length).map(event).collect()
}

/// Makes one thing bad, so that a refusal is due; several may meet.
fn spoil(case: &mut Case, urn: &mut Urn) {
    match urn.below(12) {
        0 => case.state.truncate(urn.below(144) as usize),
        1 => case.state.push(0),
        2 => case.memory.clear(),
        3 => case.memory.extend(vec![0xA5; 1 + urn.below(31) as usize]),
        4 if urn.percent(10) => case.memory.resize(MOST as usize + 32, 0x5A),
        4 => case.memory.truncate(case.memory.len().saturating_sub(4)),
        5..=6 => set(case, IAR, |word| word | (1 + urn.below(3))),
        7 => set(case, HALT, |_| 6 + urn.below(6)),
        // Bits that the 42X alone defines, so that this spoils a state of the 42.
        8 if urn.percent(20) => set(case, DBCR, |word| word | urn.some_of(dbcr::OF_42X)),
        8 if urn.percent(10) => set(case, TCR, |word| word | tcr::OF_42X),
        8 => {
            let place = urn.below(WORDS as u32 - 2) as usize;
            set(case, place, |word| word ^ 1 << urn.below(32));
        }
        9 => case.budget = if urn.percent(50) { MOST + 1 } else { MOST + 1 + urn.below(u32::MAX - MOST) },
        10 if urn.percent(5) => case.events.resize(MOST as usize + 1, 0),
        _ => {
            let at = urn.below(case.events.len() as u32 + 1) as usize;
            case.events.insert(at, 64 + urn.below(192) as u8);
        }
    }
}

/// Changes a word of the state, if the state is still whole.
fn set(case: &mut Case, place: usize, change: impl FnOnce(u32) -> u32) {
    if let Some(bytes) = case.state.get_mut(4 * place..4 * place + 4) {
        let word = u32::from_be_bytes([bytes[0], bytes[1], bytes[2], bytes[3]]);
        bytes.copy_from_slice(&change(word).to_be_bytes());
    }
}
