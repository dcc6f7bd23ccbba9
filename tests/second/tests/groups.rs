//! Which loads and stores are served, and which interrupt the others raise (the scope, "The board", and D27).

mod common;

use common::*;
use second::registers::{isr, msr, tcr};
use second::{Access, Core};

/// Bytes of the smallest lent memory.
const M: u32 = 32;

/// Width, whether it writes, opcodes of the plain and update forms, and the indexed form's extended opcode.
const ACCESSES: [(u32, bool, u32, u32, Option<u32>); 8] = [
    (1, false, 34, 35, Some(87)),
    (1, true, 38, 39, Some(215)),
    (2, false, 40, 41, Some(279)),
    (2, true, 44, 45, Some(407)),
    (4, false, 32, 33, Some(23)),
    (4, true, 36, 37, Some(151)),
    (8, false, LVD, LVDU, None),
    (8, true, STVD, STVDU, None),
];

/// r5 and r6, which are stored.
const PAIR: [u8; 8] = [0xA0, 0xA1, 0xA2, 0xA3, 0xA4, 0xA5, 0xA6, 0xA7];

fn number(bytes: &[u8]) -> u32 {
    bytes.iter().fold(0, |number, byte| number << 8 | *byte as u32)
}

/// DEC stands still; r4 + 8 and r4 + r7 are the address.
fn ready(address: u32) -> Core {
    let mut core = Core { tcr: tcr::DS_INPUT, ..core() };
    (core.gpr[4], core.gpr[7]) = (address.wrapping_sub(8), 8);
    (core.gpr[5], core.gpr[6]) = (number(&PAIR[..4]), number(&PAIR[4..]));
    core
}

/// A doubleword has to be aligned by eight; the others only to lie wholly inside one aligned group of eight bytes.
fn aligned(access: Access) -> bool {
    let (first, last) = (access.address, access.address + access.bytes - 1);
    match access.bytes {
        8 => first.is_multiple_of(8),
        _ => first / 8 == last / 8,
    }
}

/// The state and memory that the access leaves, and whether it reaches.
fn left(start: &Core, before: &[u8], access: Access, updates: bool) -> (Core, Vec<u8>, bool) {
    if !aligned(access) {
        (interrupted(start, access, 0x0C0), before.to_vec(), false)
    } else if access.address >= M {
        (interrupted(start, access, 0x060), before.to_vec(), true)
    } else {
        let (core, memory) = served(start, before, access, updates);
        (core, memory, false)
    }
}

fn interrupted(start: &Core, access: Access, vector: u32) -> Core {
    let isr = if access.writes { isr::ST } else { 0 };
    Core { iar: vector, srr1: start.msr, msr: msr::ME, edr: access.address, isr, ..start.clone() }
}

fn served(start: &Core, before: &[u8], access: Access, updates: bool) -> (Core, Vec<u8>) {
    let (mut core, mut memory) = (Core { iar: 4, ..start.clone() }, before.to_vec());
    let accessed = &mut memory[access.address as usize..][..access.bytes as usize];
    match (access.writes, accessed.len()) {
        (true, 8) => accessed.copy_from_slice(&PAIR),
        (true, width) => accessed.copy_from_slice(&PAIR[4 - width..4]),
        (false, 8) => (core.gpr[5], core.gpr[6]) = (number(&accessed[..4]), number(&accessed[4..])),
        (false, _) => core.gpr[5] = number(accessed),
    }
    if updates {
        core.gpr[4] = access.address;
    }
    (core, memory)
}

/// The word at 0, and bytes that tell their own addresses.
fn check(word: u32, access: Access, updates: bool) {
    let start = ready(access.address);
    let before: Vec<u8> = word.to_be_bytes().into_iter().chain(4..M as u8).collect();
    let (mut core, mut memory) = (start.clone(), before.clone());
    let (steps, reached) = core.run_reach(Ppe42, &mut memory, &[], 1);
    assert_eq!(steps, 1);
    assert_eq!((core, memory, reached), left(&start, &before, access, updates), "{word:08X}, {access:?}");
}

#[test]
fn every_load_and_store_up_to_and_past_the_end() {
    for (bytes, writes, plain, update, indexed) in ACCESSES {
        for address in 0..=40 {
            let access = Access { address, bytes, writes };
            check(d_form(plain, 5, 4, 8), access, false);
            check(d_form(update, 5, 4, 8), access, true);
            if let Some(extended) = indexed {
                check(x_form(5, 4, 7, extended, 0), access, false);
            }
        }
    }
}
