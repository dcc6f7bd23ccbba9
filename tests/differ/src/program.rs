//! Random programs that rewrite their own code and go on for many thousand steps: a loop of plain instructions, with handlers
//! that lead back to it, and behind it a part that is played once in so many turns and stores over the loop, the part
//! itself and the words next to its stores.
//!
//! Memory: handlers at the vectors, DATA, which the loop loads and stores, POOL, which it does not store, CODE, and behind
//! CODE two copies of it, of which the second has other words here and there. The rewriting part walks over both copies and
//! stores a few bytes at a time over the code, so that this goes from the one to the other and back, and what a clear or a
//! stray store broke is mended.

use crate::case::{bytes, named, Case};
use draw::{Form, Urn};
use second::registers::{cr, msr, tcr, WORDS};
use second::{Kind, Profile, Word};
use std::sync::LazyLock;

/// Fewer steps keep no decoded words.
pub const LEAST: u32 = 16_384;

const DATA: u32 = 0x800;
const POOL: u32 = 0xF00;
const CODE: u32 = 0x1000;
/// Words of the code at most.
const MOST: u32 = 0x400;
const COPY: u32 = 0x2000;
const END: u32 = 0x4000;

/// Of the pool: so many instructions that may stand anywhere, and behind them words for stores over themselves.
const POOLED: u32 = 16;

/// The middle of the data, where r10 points at the start of each turn.
const MIDDLE: u32 = (DATA + POOL) / 2;

/// Registers that the loop computes with, and those that it leaves: r1 is a stack pointer, r8 counts turns, r9 and r10 point
/// to code and data, r13 walks over the copies.
const FREE: [u32; 11] = [0, 2, 3, 4, 5, 6, 7, 28, 29, 30, 31];
const LEFT: [usize; 5] = [1, 8, 9, 10, 13];

const PLAIN: [&str; 58] = [
    "add", "addc", "adde", "addi", "addic", "addic.", "addis", "addme", "addze", "and", "andc", "andi.", "andis.",
    "cmplw", "cmplwi", "cmpw", "cmpwi", "cntlzw", "eqv", "extsb", "extsh", "mulli", "mullhw", "mullhwu", "mullw",
    "nand", "neg", "nor", "or", "orc", "ori", "oris", "rldicl", "rldicr", "rldimi", "rlwimi", "rlwinm", "rlwnm", "slw",
    "sraw", "srawi", "srw", "subf", "subfc", "subfe", "subfic", "subfme", "subfze", "xor", "xori", "xoris", "mfcr",
    "mfmsr", "mfspr", "mtcr0", "sync", "dcbt", "dcbf",
];

static PLAIN_OF: LazyLock<[Vec<&'static Form>; 2]> =
    LazyLock::new(|| Profile::BOTH.map(|profile| named(profile, &PLAIN)));

impl Case {
    /// A program that rewrites itself, with a budget for which words are kept.
    pub fn draw_rewriting(profile: Profile, urn: &mut Urn) -> Case {
        let program = Program::draw(profile, urn);
        let mut memory = vec![0; (END + 32 * urn.below(64)) as usize];
        urn.fill(&mut memory[DATA as usize..CODE as usize]);
        let vectors = urn.below(3) * 512;
        program.lay(urn, &mut memory, vectors);
        let budget = LEAST + if urn.percent(95) { urn.below(LEAST) } else { urn.below(10 * LEAST) };
        let state = bytes(&program.state(urn, vectors));
        Case { state, memory, events: draw_events(urn, budget), budget }
    }
}

/// Mostly none, else rare.
fn draw_events(urn: &mut Urn, budget: u32) -> Vec<u8> {
    if urn.percent(60) {
        return vec![];
    }
    let rate = 20 + urn.below(500);
    (0..budget).map(|_| if urn.below(rate) == 0 { urn.below(64) as u8 } else { 0 }).collect()
}

/// The word of a line of assembly.
fn word(line: &str) -> u32 {
    let answer = second::assemble(Profile::Ppe42x, line.as_bytes());
    assert!(answer >> 32 == 0, "{line} is no line");
    answer as u32
}

struct Program {
    profile: Profile,
    /// Both copies of each word of the code, where there is one.
    words: Vec<Option<[u32; 2]>>,
    /// Words of the pool.
    pool: Vec<u32>,
    /// The next word, how many words of the segment stand before it, and how long segments are and how far apart.
    at: u32,
    used: u32,
    length: u32,
    stride: u32,
    /// Plain words of the loop, over which others may be stored.
    plain: Vec<u32>,
    turns: u32,
}

impl Program {
    fn draw(profile: Profile, urn: &mut Urn) -> Program {
        let size = match urn.below(20) {
            0..=4 => 8 + urn.below(24),
            5..=14 => 32 + urn.below(128),
            15..=17 => 128 + urn.below(100),
            _ => 228 + urn.below(173),
        };
        // segments in the same sets, mostly no more than a set has ways
        let segments = if urn.percent(85) { 2 + urn.below(3) } else { 5 + urn.below(6) };
        let (length, stride) = match urn.below(3) {
            0 => (size / segments + 12, 64),
            1 => (size / 4 + 12, 256),
            _ => (MOST, MOST),
        };
        let (words, pool) = (vec![None; MOST as usize], vec![]);
        let mut program = Program { profile, words, pool, at: 0, used: 0, length, stride, plain: vec![], turns: 1 };
        program.pool = (0..POOLED).map(|_| program.draw_plain(urn)).collect();
        program.put(&[word(&format!("addi r10,0,{MIDDLE}"))]);
        while program.count() < size {
            program.put_item(urn);
        }
        program.put_rewriting(urn);
        program
    }

    fn count(&self) -> u32 {
        self.words.iter().flatten().count() as u32
    }

    /// A word that changes none of the registers that are left, and goes on to the next.
    fn draw_plain(&self, urn: &mut Urn) -> u32 {
        loop {
            let drawn = Word(urn.pick(&PLAIN_OF[self.profile as usize]).draw(urn));
            let doubled = matches!(drawn.kind(self.profile), Some(Kind::Rldicl | Kind::Rldicr | Kind::Rldimi));
            let fields = [drawn.rt(), drawn.ra()];
            let touched = |register: &usize| LEFT.contains(register) || doubled && LEFT.contains(&(register + 1));
            if !fields.iter().any(touched) {
                return drawn.0;
            }
        }
    }

    fn draw_illegal(&self, urn: &mut Urn) -> u32 {
        loop {
            let drawn = match urn.below(4) {
                0 => 0,
                1 => urn.below(0x1000),
                2 => self.draw_plain(urn) ^ 1 << urn.below(32),
                _ => urn.word(),
            };
            if !second::legal(self.profile, drawn) {
                return drawn;
            }
        }
    }

    /// Puts words one after the other, in the next segment if this one has no room for them and a branch.
    fn put(&mut self, words: &[u32]) -> u32 {
        let both: Vec<_> = words.iter().map(|word| [*word; 2]).collect();
        self.put_both(&both)
    }

    fn put_both(&mut self, words: &[[u32; 2]]) -> u32 {
        if self.used > 0 && self.used + words.len() as u32 >= self.length && self.next() < MOST {
            let next = self.next();
            let branch = self.branch(self.at, next);
            self.set(branch);
            (self.at, self.used) = (next, 0);
        }
        let first = self.at;
        for word in words {
            self.set(*word);
        }
        first
    }

    fn next(&self) -> u32 {
        (self.at / self.stride + 1) * self.stride
    }

    fn set(&mut self, words: [u32; 2]) {
        self.words[self.at as usize] = Some(words);
        self.at += 1;
        self.used += 1;
    }

    fn branch(&self, from: u32, to: u32) -> [u32; 2] {
        [word(&format!("b {}", 4 * (to as i32 - from as i32))); 2]
    }

    /// Plain words, the second copy often another one and now and then illegal.
    fn draw_both(&self, urn: &mut Urn) -> [u32; 2] {
        let first = self.draw_plain(urn);
        match urn.below(20) {
            0 => [first, self.draw_illegal(urn)],
            1..=12 => [first, self.draw_plain(urn)],
            _ => [first; 2],
        }
    }

    fn put_plain(&mut self, urn: &mut Urn) {
        let words = self.draw_both(urn);
        let at = self.put_both(&[words]);
        self.plain.push(at);
    }

    /// A few words of the loop that belong together.
    fn put_item(&mut self, urn: &mut Urn) {
        match urn.below(100) {
            0..=64 => self.put_plain(urn),
            65..=79 => {
                let access = draw_access(urn);
                let other = if urn.percent(20) { draw_access(urn) } else { access };
                self.put_both(&[[access, other]]);
            }
            80..=86 => self.put_skip(urn),
            87..=89 => self.put_call(urn),
            90..=92 => self.put_inner(urn),
            93..=96 => {
                let special = draw_special(urn);
                self.put(&[special]);
            }
            97 => {
                let words = [word("tw 31,r0,r0"), self.draw_illegal(urn)];
                self.put(&[urn.pick(&words)]);
            }
            _ if self.plain.len() > 40 => self.put_patch(urn),
            _ => self.put_plain(urn),
        }
    }

    /// A branch on a bit of CR over some words.
    fn put_skip(&mut self, urn: &mut Urn) {
        let over = 1 + urn.below(4);
        let taken = urn.pick(&[4, 6, 12, 14, 20]);
        let mut words = vec![[word(&format!("bc {taken},{},{}", urn.below(4), 4 * (over + 1))); 2]];
        words.extend((0..over).map(|_| self.draw_both(urn)));
        let first = self.put_both(&words);
        self.plain.extend(first + 1..=first + over);
    }

    /// A call of two words that stand behind the branch over them.
    fn put_call(&mut self, urn: &mut Urn) {
        let called = self.draw_both(urn);
        let first = self.put_both(&[[word("bl 8"); 2], [word("b 12"); 2], called, [word("bclr 20,0"); 2]]);
        self.plain.push(first + 2);
    }

    /// A loop within the loop.
    fn put_inner(&mut self, urn: &mut Urn) {
        let inside = 1 + urn.below(5);
        let mut words = vec![[word(&format!("addi r7,0,{}", 2 + urn.below(30))); 2], [word("mtspr 9,r7"); 2]];
        words.extend((0..inside).map(|_| self.draw_both(urn)));
        words.push([word(&format!("bc 16,0,-{}", 4 * inside)); 2]);
        let first = self.put_both(&words);
        self.plain.extend(first + 2..first + 2 + inside);
    }

    /// One word of the one copy or the other over the code; the walk decides which.
    fn put_patch(&mut self, urn: &mut Urn) {
        let target = urn.pick(&self.plain);
        let place = CODE + 4 * target;
        let chosen = word(&format!("rlwinm r9,r13,{},19,19", 7 + urn.below(3)));
        let mut words = vec![chosen, word(&format!("lwz r7,{}(r9)", COPY + 4 * target))];
        words.extend(store_lines(urn, "w", 7, place).iter().map(|line| word(line)));
        self.put(&words);
    }

    /// Counts the turns, and plays what rewrites once in so many.
    fn put_rewriting(&mut self, urn: &mut Urn) {
        let steps = self.count();
        let first = self.put(&[word("addic. r8,r8,-1"), 0]);
        self.words[first as usize + 1] = Some([word(&format!("bc 4,2,-{}", 4 * (first + 1))); 2]);
        let parts = 2 + urn.below(4);
        self.put_walk(urn);
        for _ in 1..parts {
            match urn.below(100) {
                0..=24 => self.put_walk(urn),
                25..=59 => self.put_patch_or_walk(urn),
                60..=69 => self.put_next_word(urn),
                70..=79 => self.put_own_word(urn),
                80..=89 => self.put_clear(urn),
                90..=94 => self.put_stray(urn),
                _ if self.profile.is_42x() => self.put_frame(urn),
                _ => self.put_walk(urn),
            }
        }
        if self.profile.is_42x() && urn.percent(40) {
            self.put_frame(urn);
        }
        let apart = 50 + urn.below(450);
        self.turns = (apart * parts / steps).max(1);
        let again = self.put(&[word(&format!("addi r8,0,{}", self.turns)), 0]);
        self.words[again as usize + 1] = Some(self.branch(again + 1, 0));
        for at in 0..MOST {
            if self.words[at as usize].is_none() {
                self.words[at as usize] = Some(self.branch(at, 0));
            }
        }
    }

    fn put_patch_or_walk(&mut self, urn: &mut Urn) {
        if self.plain.is_empty() {
            self.put_walk(urn);
        } else {
            self.put_patch(urn);
        }
    }

    /// Eight bytes further, and so many bytes of what the copy has there over the code. The walk takes in what is in use, of
    /// one copy and then of the other.
    fn put_walk(&mut self, urn: &mut Urn) {
        let bits = (4 * (self.at + 40)).next_power_of_two().min(4 * MOST).trailing_zeros();
        let (width, bytes) = urn.pick(&[("vd", 8), ("vd", 8), ("w", 4), ("w", 4), ("h", 2), ("b", 1)]);
        let offset = if urn.percent(50) { urn.below(9 - bytes) } else { urn.below(8 / bytes) * bytes };
        let register = if bytes == 8 { 28 } else { 6 };
        let load = if bytes == 8 { "lvd".into() } else { format!("l{width}z") };
        let mut lines = vec![
            "addi r13,r13,8".into(),
            format!("rlwinm r7,r13,0,{},28", 32 - bits),
            format!("rlwinm r9,r13,{},19,19", 12 - bits),
            "add r9,r9,r7".into(),
            format!("{load} r{register},{}(r9)", COPY + offset),
        ];
        let place = CODE + offset;
        match urn.below(if bytes == 8 { 2 } else { 3 }) {
            0 => lines.push(format!("st{width} r{register},{place}(r7)")),
            1 => {
                lines.push(format!("addi r9,r7,{}", place - 16));
                lines.push(format!("st{width}u r{register},16(r9)"));
            }
            _ => {
                lines.push(format!("addi r9,0,{place}"));
                lines.push(format!("st{width}x r{register},r7,r9"));
            }
        }
        self.put(&lines.iter().map(|line| word(line)).collect::<Vec<_>>());
    }

    /// A word of the pool over the word behind the store.
    fn put_next_word(&mut self, urn: &mut Urn) {
        let next = self.draw_plain(urn);
        let first = self.put(&[word("rlwinm r9,r13,0,26,28"), word(&format!("lwz r7,{POOL}(r9)")), 0, next]);
        let place = CODE + 4 * (first + 3);
        self.words[first as usize + 2] = Some([word(&format!("stw r7,{place}(0)")); 2]);
    }

    /// A store over itself: of r6 it becomes one of r7, and that one of r6 again.
    fn put_own_word(&mut self, urn: &mut Urn) {
        let at = POOL + 4 * self.pool.len() as u32;
        if at + 8 > CODE {
            return self.put_walk(urn);
        }
        let first = self.put(&[word(&format!("lwz r6,{at}(0)")), word(&format!("lwz r7,{}(0)", at + 4)), 0]);
        let place = CODE + 4 * (first + 2);
        let [of_r6, of_r7] = [6, 7].map(|register| word(&format!("stw r{register},{place}(0)")));
        self.words[first as usize + 2] = Some([of_r6; 2]);
        self.pool.extend([of_r7, of_r6]);
    }

    /// A block of the loop, or one of those about here.
    fn put_clear(&mut self, urn: &mut Urn) {
        let block = if urn.percent(80) && self.at > 16 { 8 + urn.below(self.at - 8) } else { self.at };
        let place = CODE + 4 * block + urn.below(4);
        self.put(&[word(&format!("addi r9,0,{place}")), word("dcbz 0,r9")]);
    }

    /// A byte or halfword of no account over a word of the loop.
    fn put_stray(&mut self, urn: &mut Urn) {
        let Some(target) = (!self.plain.is_empty()).then(|| urn.pick(&self.plain)) else { return self.put_walk(urn) };
        let place = CODE + 4 * target + urn.below(4);
        let width = urn.pick(&["b", "h"]);
        let register = urn.pick(&FREE);
        self.put(&store_lines(urn, width, register, place).iter().map(|line| word(line)).collect::<Vec<_>>());
    }

    /// A frame over code, of the words that a copy has there; the back pointer is no instruction.
    fn put_frame(&mut self, urn: &mut Urn) {
        let stack = CODE + 8 * (4 + urn.below(self.at / 2));
        let copy = stack - CODE + COPY + 4 * MOST * urn.below(2);
        let frame = urn.pick(&[8, 16, 24, 24, 32]).min(stack - CODE);
        let lines = [
            format!("lvd r30,{}(0)", copy - 8),
            format!("lvd r28,{}(0)", copy - 16),
            format!("lwz r7,{}(0)", copy + 4),
            "mtspr 8,r7".into(),
            format!("addi r1,0,{stack}"),
            format!("stsku r1,-{frame}(r1)"),
        ];
        self.put(&lines.map(|line| word(&line)));
    }

    /// Handlers, pool, code and its copies.
    fn lay(&self, urn: &mut Urn, memory: &mut [u8], vectors: u32) {
        let over = ["mfspr r31,26", "addi r31,r31,4", "mtspr 26,r31", "rfi"].map(word);
        let back = [word(&format!("addi r31,0,{CODE}")), word("mtspr 26,r31"), word("rfi")];
        let mut due = ["mfspr r31,336", "mtspr 336,r31"].map(word).to_vec();
        if !self.plain.is_empty() && urn.percent(50) {
            let target = urn.pick(&self.plain);
            due.push(word(&format!("lwz r31,{}(0)", COPY + 4 * (target + urn.below(2) * MOST))));
            due.push(word(&format!("stw r31,{}(0)", CODE + 4 * target)));
        }
        due.push(word("rfi"));
        for (offset, handler) in [(0x000, &back[..]), (0x020, &back), (0x060, &over), (0x080, &back), (0x0C0, &over)] {
            put(memory, vectors + offset, handler);
        }
        put(memory, vectors + 0x0E0, &over);
        for offset in [0x0A0, 0x100, 0x120, 0x140] {
            put(memory, vectors + offset, &due);
        }
        put(memory, POOL, &self.pool);
        for copy in 0..2 {
            let words: Vec<u32> = self.words.iter().flatten().map(|both| both[copy]).collect();
            put(memory, COPY + 4 * MOST * copy as u32, &words);
            if copy == 0 {
                put(memory, CODE, &words);
            }
        }
    }

    fn state(&self, urn: &mut Urn, vectors: u32) -> [u32; WORDS] {
        let mut words = [0; WORDS];
        words[..16].fill_with(|| urn.value());
        for (place, value) in [(1, CODE + 64), (8, self.turns), (9, CODE), (10, MIDDLE), (11, urn.below(MOST) * 8)] {
            words[place] = value;
        }
        let enabled = if urn.percent(50) { msr::EE } else { 0 };
        let timers = if urn.percent(50) { urn.some_of(tcr::defined(self.profile) & !tcr::WRC) } else { 0 };
        let checked = if urn.percent(50) { msr::ME } else { 0 };
        for (place, value) in [
            (CR, urn.some_of(cr::DEFINED)),
            (CTR, urn.value()),
            (DEC, urn.value()),
            (IVPR, vectors),
            (LR, CODE),
            (MSR, msr::UIE | enabled | checked),
            (SPRG0, urn.value()),
            (TCR, timers),
            (IAR, CODE),
        ] {
            words[place] = value;
        }
        words
    }
}

/// Places in a state record.
const CR: usize = 16;
const CTR: usize = 17;
const DEC: usize = 20;
const IVPR: usize = 23;
const LR: usize = 24;
const MSR: usize = 25;
const SPRG0: usize = 28;
const TCR: usize = 31;
const IAR: usize = 34;

fn put(memory: &mut [u8], address: u32, words: &[u32]) {
    let bytes = bytes(words);
    memory[address as usize..][..bytes.len()].copy_from_slice(&bytes);
}

/// A store of this width there, in one of its forms.
fn store_lines(urn: &mut Urn, width: &str, register: u32, place: u32) -> Vec<String> {
    match urn.below(3) {
        0 => vec![format!("st{width} r{register},{place}(0)")],
        1 => vec![format!("addi r9,0,{}", place - 8), format!("st{width}u r{register},8(r9)")],
        _ => vec![format!("addi r9,0,{place}"), format!("st{width}x r{register},0,r9")],
    }
}

/// A load from anywhere, or a store to data.
fn draw_access(urn: &mut Urn) -> u32 {
    let register = urn.pick(&FREE);
    let (width, bytes) = urn.pick(&[("b", 1), ("h", 2), ("w", 4), ("vd", 8)]);
    let stores = urn.percent(40);
    let (low, high) = if stores { (DATA, POOL) } else { (0, END) };
    let place = low + urn.below((high - low) / 8) * 8 + if urn.percent(80) { 0 } else { urn.below(8) / bytes * bytes };
    let near = urn.below(8) as i32 * 8 - 32;
    let first = if bytes == 8 { urn.pick(&[2, 4, 6, 28, 30, 31]) } else { register };
    let verb = match (stores, bytes) {
        (true, _) => format!("st{width}"),
        (false, 8) => "lvd".into(),
        (false, _) => format!("l{width}z"),
    };
    word(&match urn.below(6) {
        0 => format!("{verb} r{first},{near}(r10)"),
        1 => format!("{verb}u r{first},{near}(r10)"),
        2 if bytes < 8 => format!("{verb}x r{first},0,r10"),
        _ => format!("{verb} r{first},{place}(0)"),
    })
}

/// What touches other registers and leaves the run on its way.
fn draw_special(urn: &mut Urn) -> u32 {
    let register = urn.pick(&FREE);
    word(&match urn.below(4) {
        0 => format!("wrteei {}", urn.below(2)),
        1 => "dcbi 0,r10".into(),
        _ => format!("mtspr {},r{register}", urn.pick(&[1, 22, 26, 27, 61, 62, 272, 316])),
    })
}
