//! `run` against the plain library, by both of its engines: the same state, memory, count and reach as calls of one step each.

mod common;

use common::{content, folder, ppe42, text};
use everyday::capture::Capture;
use everyday::library::{self, Told};
use everyday::profile::Profile;
use everyday::registers::{State, IAR, MSR, WE};
use serde_json::Value;
use std::fs;
use std::path::Path;

/// A memory with words at these addresses.
fn memory(length: usize, parts: &[(usize, &[u32])]) -> Vec<u8> {
    let mut memory = vec![0; length];
    for (at, words) in parts {
        let bytes: Vec<u8> = words.iter().flat_map(|word| word.to_be_bytes()).collect();
        memory[*at..*at + bytes.len()].copy_from_slice(&bytes);
    }
    memory
}

/// mfspr r6,26; addi r6,r6,4; mtspr 26,r6; rfi
const STEPS_OVER: &[u32] = &[0x7CDA02A6, 0x38C60004, 0x7CDA03A6, 0x4C000064];

/// loop.bin counts in memory and loads from r5; climb.bin loads at r5, four bytes further in each turn. A handler at 060 steps
/// over the load, one at 0A0 returns.
fn loops(folder: &Path) {
    let parts: &[(usize, &[u32])] = &[
        (0, &[0x38630001, 0x90600100, 0x80850000, 0x4BFFFFF4]), // addi r3,r3,1; stw r3,256(0); lwz r4,0(r5); b 0
        (0x060, STEPS_OVER),
        (0x0A0, &[0x39080001, 0x4C000064]), // addi r8,r8,1; rfi
        // addi r5,r5,4; lwz r4,0(r5); nop; nop; b 200
        (0x200, &[0x38A50004, 0x80850000, 0x60000000, 0x60000000, 0x4BFFFFF0]),
    ];
    let memory = memory(0x214, parts);
    fs::write(folder.join("climb.bin"), &memory).unwrap();
    fs::write(folder.join("loop.bin"), &memory[..0x200]).unwrap();
}

/// products.bin, for a 42X: from 180 on products and doublewords turned, a load from outside and an illegal word, from 1A0 on
/// frames pushed and popped, each turn eight bytes further; with handlers for the machine check at 020 and the decrementer.
fn products(folder: &Path) {
    let parts: &[(usize, &[u32])] = &[
        (0x020, STEPS_OVER),
        (0x100, &[0x3D000800, 0x7D1053A6, 0x4C000064]), // addis r8,0,2048; mtspr 336,r8; rfi
        (0x180, &[0x1C630005, 0x38630007, 0x7C8319D6]), // mulli r3,r3,5; addi r3,r3,7; mullw r4,r3,r3
        (0x18C, &[0x787CA200, 0x93800040, 0x81201000]), // rldicl r28,r3,20,8; stw r28,64(0); lwz r9,4096(0)
        (0x198, &[0, 0x4BFFFFE4]),                      // illegal; b 180
        (0x1A0, &[0xF821FFF3, 0xE821001B, 0x4BFFFFF8]), // stsku r1,-16(r1); lsku r1,24(r1); b 1A0
    ];
    fs::write(folder.join("products.bin"), memory(0x200, parts)).unwrap();
}

/// rewriting.bin counts by its first word, over which it stores addi r3,r3,1 and addi r3,r3,16 in turns.
fn rewriting(folder: &Path) {
    // bc 16,0,-4; xor r6,r6,r7; stw r6,0(0); mtspr 9,r8; b 0
    let words = [0x38630001, 0x4200FFFC, 0x7CC63A78, 0x90C00000, 0x7D0903A6, 0x4BFFFFEC];
    fs::write(folder.join("rewriting.bin"), memory(0x20, &[(0, &words)])).unwrap();
}

/// Steps one by one with these event bytes; the count, and the first step that faulted for want of memory.
fn plainly(
    capture: &mut Capture,
    event: impl Fn(u64) -> u8,
    steps: u64,
    until: impl Fn(&State, &State) -> bool,
) -> (u64, Option<u64>) {
    let mut reached = None;
    for step in 0..steps {
        let before = capture.state.clone();
        let told = capture.profile.tell(&capture.state, &capture.memory, event(step)).unwrap();
        let outside = [library::Fault::DataStorage, library::Fault::InstructionStorage].map(Told::Faults);
        if outside.contains(&told) {
            reached = reached.or(Some(step));
        }
        if capture.profile.step(&mut capture.state, &mut capture.memory, event(step)).unwrap().count == 0 {
            return (step, reached);
        }
        if until(&before, &capture.state) {
            return (step + 1, reached);
        }
    }
    (steps, reached)
}

/// Both, and their comparison.
fn same(
    name: &str,
    make: &[&str],
    run: &[&str],
    event: impl Fn(u64) -> u8,
    steps: u64,
    until: impl Fn(&State, &State) -> bool,
) {
    let folder = folder(name);
    loops(&folder);
    products(&folder);
    rewriting(&folder);
    content(ppe42(&folder, make));
    let before = folder.join("start.capture");
    let profile = Profile::of(make.contains(&"--42x"));
    let count = steps.to_string();
    let mut plain = Capture::read(profile, &before).unwrap();
    let (taken, reached) = plainly(&mut plain, event, steps, until);
    assert!(taken > 0, "{name}: nothing was played");
    for engine in [&[][..], &["--plain"]] {
        let mut arguments = vec!["run", "start.capture", "--json", "--out", "end.capture", "--steps", &count];
        arguments.extend(run.iter().chain(engine));
        let report: Value = serde_json::from_str(&text(&content(ppe42(&folder, &arguments)).stdout)).unwrap();
        let after = Capture::read(profile, &folder.join("end.capture")).unwrap();
        let same = after.state == plain.state && after.memory == plain.memory;
        assert!(same, "{name} {engine:?}: not the same state and memory");
        assert_eq!(report["steps"].as_u64(), Some(taken), "{name} {engine:?}");
        assert_eq!(report["reached"].as_u64(), reached, "{name} {engine:?}");
    }
}

fn never(_: &State, _: &State) -> bool {
    false
}

const LOOP: &[&str] = &["make", "loop.bin", "-o", "start.capture", "--memory", "512", "--set", "MSR=00018000"];

fn looping_with<'a>(settings: &[&'a str]) -> Vec<&'a str> {
    LOOP.iter().copied().chain(settings.iter().copied()).collect()
}

#[test]
fn a_long_run_with_events() {
    let event = |step: u64| match step {
        1_048_575..=1_048_577 => 3,
        2_000_000 => 5,
        2_000_001..=2_000_010 => 4,
        _ => u8::from(step > 0 && step % 1000 == 0),
    };
    let lines = [
        "--event",
        "every 1000 external",
        "--event",
        "from 2000000 to 2000010 timer0",
        "--event",
        "1048575*0 3*external+decrementer",
    ];
    let make = looping_with(&["--set", "r5=104", "--set", "TCR=00800000"]);
    same("long", &make, &lines, event, 3_000_001, never);
}

#[test]
fn a_run_that_reaches_and_goes_on() {
    same("reach", &looping_with(&["--set", "r5=1000"]), &[], |_| 0, 2_500_000, never);
}

/// The loads go up through a megabyte and leave it in the second run of the library.
#[test]
fn a_run_that_reaches_late() {
    let make = [
        "make", "climb.bin", "-o", "start.capture", "--memory", "1048576", "--set", "MSR=00010000", "--set", "IAR=200",
    ];
    same("late_reach", &make, &[], |_| 0, 2_500_000, never);
}

#[test]
fn a_fault_and_its_step() {
    let make = ["make", "look.elf", "-o", "start.capture", "--memory", "16384", "--set", "DBCR=01000000"];
    same("fault", &make, &[], |_| 0, 1_000_000_000, never);
}

#[test]
fn firmware_with_ticks() {
    let make = ["make", "ticks.elf", "-o", "start.capture", "--memory", "16384", "--set", "DBCR=01000000"];
    same(
        "ticks_run",
        &make,
        &["--event", "every 7 timer0"],
        |step| 4 * u8::from(step > 0 && step % 7 == 0),
        100_000,
        never,
    );
}

/// DEC counts on timer 3.
#[test]
fn a_42x_with_ticks_and_machine_checks() {
    let settings = ["IAR=180", "MSR=00009000", "TCR=04600000", "DEC=3", "r3=1"];
    let settings = settings.iter().flat_map(|setting| ["--set", setting]);
    let make = ["make", "--42x", "products.bin", "-o", "start.capture", "--memory", "1024"];
    let make: Vec<&str> = make.into_iter().chain(settings).collect();
    let run = ["--42x", "--event", "every 3 timer3", "--event", "at 500 external+timer1"];
    let event = |step: u64| 32 * u8::from(step > 0 && step % 3 == 0) + 9 * u8::from(step == 500);
    same("products_run", &make, &run, event, 100_000, never);
}

/// The frames go up and out of the memory, first by their last bytes.
#[test]
fn a_42x_with_frames() {
    let settings = ["IAR=1A0", "MSR=00001000", "r1=200", "LR=11111111", "r28=28282828", "r31=31313131"];
    let settings = settings.iter().flat_map(|setting| ["--set", setting]);
    let make = ["make", "--42x", "products.bin", "-o", "start.capture", "--memory", "1024"];
    let make: Vec<&str> = make.into_iter().chain(settings).collect();
    same("frames_run", &make, &["--42x"], |_| 0, 100_000, never);
}

#[test]
fn code_that_rewrites_itself() {
    let settings = ["r6=38630001", "r7=11", "r8=64", "CTR=64"].iter().flat_map(|setting| ["--set", setting]);
    let make = ["make", "rewriting.bin", "-o", "start.capture", "--memory", "512"];
    let make: Vec<&str> = make.into_iter().chain(settings).collect();
    same("rewriting", &make, &[], |_| 0, 2_500_000, never);
}

#[test]
fn until_an_address() {
    let event = |step: u64| u8::from(step == 5000);
    same(
        "until",
        &looping_with(&["--set", "r5=104"]),
        &["--until", "A0", "--event", "at 5000 1"],
        event,
        100_000,
        |_, after| after.get(IAR) == 0xA0,
    );
}

#[test]
fn until_the_wait() {
    let make = ["make", "ticks.elf", "-o", "start.capture", "--memory", "16384", "--set", "DBCR=01000000"];
    let waits = |before: &State, after: &State| before.get(MSR) & WE == 0 && after.get(MSR) & WE != 0;
    same("wait", &make, &["--until", "wait"], |_| 0, 100_000, waits);
}

/// The step that halts is told though it comes long after the last copy that it is played again from.
#[test]
fn a_halt_after_many_runs() {
    let folder = folder("late");
    fs::write(folder.join("late.bin"), [0x42, 0, 0, 0, 0x7F, 0xE0, 0, 8]).unwrap(); // bdnz 0; trap
    let settings = ["--set", "CTR=0225FFF0", "--set", "DBCR=01000000"];
    content(ppe42(&folder, &[&["make", "late.bin", "-o", "late.capture", "--memory", "32"], &settings[..]].concat()));
    let output =
        content(ppe42(&folder, &["run", "late.capture", "--steps", "1G", "--expect", "halt 3, steps 36044785"]));
    assert!(text(&output.stdout).contains("trap by the word at 00000004, step 36044784; halted with 3"));
}
