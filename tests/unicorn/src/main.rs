//! One-instruction cases of the library under test against the Unicorn emulator's PowerPC 405: its 42's instructions, and the
//! 42X's multiplications; and the 42X's rotations of pairs against QEMU's 64-bit PowerPC, where it is there.
//!
//! `unicorn SEED CASES`, so many of each of the three; the exit status is 1 if a case differs.

mod case;
mod emulator;
mod profile;
mod rotations;

use case::{Case, Side};
use draw::Urn;
use emulator::Emulator;
use std::collections::BTreeMap;
use std::process::ExitCode;

const SHOWN: u64 = 10;
/// A store crashes Unicorn 2.0.1 some 800,000 cases after its start, so a new one is started well before.
const LIFE: u64 = 100_000;

fn main() -> ExitCode {
    let arguments: Vec<u64> = std::env::args().skip(1).filter_map(|argument| argument.parse().ok()).collect();
    let [seed, cases] = arguments[..] else {
        eprintln!("usage: unicorn SEED CASES");
        return ExitCode::from(2);
    };
    println!("seed {seed}, {cases} cases of the 42, then of the 42X's multiplications, then of its rotations");
    let mut urn = Urn::new(seed);
    let mut differences = compare(&mut urn, cases, Case::draw);
    differences += compare(&mut urn, cases, Case::draw_multiplication);
    if rotations::can_be_played() {
        differences += compare_rotations(&mut urn, cases);
    } else {
        println!("left out: the rotations (no qemu-ppc64 here)");
    }
    println!("{differences} differences");
    if differences == 0 {
        ExitCode::SUCCESS
    } else {
        ExitCode::FAILURE
    }
}

fn compare(urn: &mut Urn, cases: u64, draw: fn(&mut Urn) -> Case) -> u64 {
    let mut emulator = Emulator::new();
    let mut memory = [0; case::MEMORY];
    let mut seen = BTreeMap::new();
    let (mut unaligned, mut differences) = (0, 0);
    urn.fill(&mut memory);
    emulator::install(&mut memory);
    for number in 0..cases {
        let case = draw(urn);
        let stood = case.place(&mut memory);
        emulator.memory().copy_from_slice(&memory);
        let core = case.run_library(&mut memory);
        let emulated = emulator.run(&case);
        *seen.entry(case.mnemonic).or_insert(0u64) += 1;
        unaligned += case.unaligned as u64;
        if core != emulated || memory != emulator.memory() {
            differences += 1;
            show(differences, number, &case, &core, &emulated, &memory, emulator.memory());
        }
        // Unicorn translates as far as words are instructions, and would be slow in a memory full of them.
        case.put_back(&mut memory, stood);
        if (number + 1) % LIFE == 0 {
            eprintln!("{} cases, {differences} differences", number + 1);
            emulator = Emulator::new();
        }
    }
    tell(seen);
    if unaligned > 0 {
        println!("{unaligned} accesses not aligned, each inside its group of eight bytes");
    }
    differences
}

/// A program after the other.
fn compare_rotations(urn: &mut Urn, cases: u64) -> u64 {
    let mut memory = [0; case::MEMORY];
    let mut seen = BTreeMap::new();
    let (mut done, mut differences) = (0, 0);
    while done < cases {
        let drawn = rotations::draw(urn, (cases - done).min(rotations::MOST as u64) as usize);
        for (case, emulated) in drawn.iter().zip(rotations::emulate(&drawn)) {
            case.place(&mut memory);
            let before = memory;
            let core = case.run_library(&mut memory);
            *seen.entry(case.mnemonic).or_insert(0u64) += 1;
            if core != emulated || memory != before {
                differences += 1;
                show(differences, done, case, &core, &emulated, &memory, &before);
            }
            done += 1;
        }
    }
    tell(seen);
    differences
}

fn tell(seen: BTreeMap<&str, u64>) {
    for (mnemonic, count) in seen {
        println!("{mnemonic:8} {count:10}");
    }
}

fn show(nth: u64, number: u64, case: &Case, core: &Side, emulated: &Side, memory: &[u8], theirs: &[u8]) {
    if nth > SHOWN {
        return;
    }
    println!("case {number}: {} {:08X}", case.mnemonic, case.word);
    println!("  before:  {}", case.before);
    println!("  core:    {core}");
    println!("  other:   {emulated}");
    for (at, (ours, theirs)) in memory.iter().zip(theirs).enumerate().filter(|(_, (ours, theirs))| ours != theirs) {
        println!("  byte {at:04X}: core {ours:02X}, other {theirs:02X}");
    }
}
