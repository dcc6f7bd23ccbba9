//! The 42X's rotations against a 64-bit PowerPC: Unicorn 2.0.1 has none that plays them, so QEMU's user mode does. A pair's
//! first register is the 64-bit register of that number. A program holds some words, goes through them again and again, each time
//! with operands of their own, and writes what every word left: its result and CR.

use crate::case::{Case, Side};
use draw::Urn;
use std::fs::{self, OpenOptions};
use std::io::Write;
use std::os::unix::fs::OpenOptionsExt;
use std::process::{Command, Stdio};

const QEMU: &str = "qemu-ppc64";
const INSTALL: &str = concat!(env!("CARGO_MANIFEST_DIR"), "/../install");

/// The words of a program, and how often it goes through them.
const WORDS: usize = 4096;
const PASSES: usize = 16;

/// Where the program's one segment stands, and the bytes of its two headers.
const BASE: u64 = 0x1000_0000;
const HEADERS: u64 = 64 + 56;
/// Bytes of a case: source, target, XER and CR; result and CR.
const GIVEN: usize = 32;
const LEFT: usize = 16;

/// Whether there is a QEMU, or Debian's package brings it.
pub fn can_be_played() -> bool {
    let there = || Command::new(QEMU).arg("-version").stdout(Stdio::null()).stderr(Stdio::null()).status().is_ok();
    there() || (Command::new(INSTALL).arg("qemu-user").status().is_ok() && there())
}

/// The cases of one program, so many or the few more that its last pass needs, at most `MOST`. They share its words, and have
/// registers of their own.
pub fn draw(urn: &mut Urn, count: usize) -> Vec<Case> {
    let words: Vec<Case> = (0..WORDS.min(count)).map(|_| Case::draw_rotation(urn)).collect();
    let whole = count.next_multiple_of(words.len());
    (0..whole).map(|i| words[i % words.len()].with_registers(Side::draw(urn))).collect()
}

pub const MOST: usize = WORDS * PASSES;

/// What QEMU leaves of each case, which are those of one program.
pub fn emulate(cases: &[Case]) -> Vec<Side> {
    let path = std::env::temp_dir().join(format!("rotations-{}", std::process::id()));
    let mut file =
        OpenOptions::new().write(true).create_new(true).mode(0o700).open(&path).expect("a program can be written");
    file.write_all(&program(cases)).expect("the program can be written whole");
    drop(file);
    let output = Command::new(QEMU).arg(&path).stderr(Stdio::inherit()).output().expect("QEMU starts");
    fs::remove_file(&path).expect("the program can be removed");
    assert!(output.status.success(), "QEMU did not play the program to its end");
    assert_eq!(output.stdout.len(), cases.len() * LEFT, "the program did not write all that it was to");
    cases.iter().zip(output.stdout.chunks_exact(LEFT)).map(|(case, left)| after(case, left)).collect()
}

fn doubleword(bytes: &[u8]) -> u64 {
    u64::from_be_bytes(bytes.try_into().expect("eight bytes"))
}

/// A rotation changes its target and CR0 alone.
fn after(case: &Case, left: &[u8]) -> Side {
    let mut side = case.before.clone();
    side.set_pair(case.word >> 16 & 31, doubleword(&left[..8]));
    side.cr = doubleword(&left[8..]) as u32 & 0xF000_0000;
    side.iar += 4;
    side
}

/// An executable file: two headers, code, operands, and room for what is left behind its end.
fn program(cases: &[Case]) -> Vec<u8> {
    let words = &cases[..WORDS.min(cases.len())];
    let code_len = 4 * code(words, 0, 0, 0).len() as u64;
    let given = BASE + HEADERS + code_len;
    let left = given + (cases.len() * GIVEN) as u64;
    let code = code(words, cases.len(), given, left);
    let mut file = headers(left - BASE, (cases.len() * LEFT) as u64);
    file.extend(code.iter().flat_map(|word| word.to_be_bytes()));
    for case in cases {
        let (source, target) = (case.before.pair(case.word >> 21 & 31), case.before.pair(case.word >> 16 & 31));
        for value in [source, target, case.before.xer.into(), case.before.cr.into()] {
            file.extend(value.to_be_bytes());
        }
    }
    file
}

/// The ELF header, whose entry is code (ABI 2), and one segment that may be read, written and executed.
fn headers(file_len: u64, room: u64) -> Vec<u8> {
    let mut bytes = b"\x7FELF\x02\x02\x01".to_vec();
    bytes.resize(16, 0);
    bytes.extend([0, 2, 0, 21, 0, 0, 0, 1]); // an executable, PowerPC of 64 bits, version 1
    for value in [BASE + HEADERS, 64, 0] {
        bytes.extend(value.to_be_bytes());
    }
    bytes.extend([0, 0, 0, 2, 0, 64, 0, 56, 0, 1, 0, 0, 0, 0, 0, 0]); // ABI 2, sizes of the headers, one segment
    bytes.extend([0, 0, 0, 1, 0, 0, 0, 7]); // loaded, all rights
    for value in [0, BASE, BASE, file_len, file_len + room, 0x1_0000] {
        bytes.extend(value.to_be_bytes());
    }
    bytes
}

/// r14 goes through what is given and r15 through what is left, of so many cases in all; neither these nor r16 can be in a pair.
fn code(words: &[Case], cases: usize, given: u64, left: u64) -> Vec<u32> {
    let passes = cases / words.len();
    let mut code = Vec::new();
    for (register, value) in [(14, given), (15, left), (16, passes as u64)] {
        load(&mut code, register, value);
    }
    code.push(0x7E09_03A6); // mtctr r16
    let again = code.len();
    for case in words {
        play(&mut code, case.word);
    }
    code.push(0x4240_0008); // bdz .+8
    code.push(0x4800_0000 | (again.wrapping_sub(code.len()) as u32) << 2 & 0x03FF_FFFC); // b to the first word
    for (register, value) in [(0, 4), (3, 1), (4, left), (5, (cases * LEFT) as u64)] {
        load(&mut code, register, value);
    }
    code.push(0x4400_0002); // sc: write
    load(&mut code, 0, 1);
    load(&mut code, 3, 0);
    code.push(0x4400_0002); // sc: exit
    code
}

/// lis and ori of a value below 2^31.
fn load(code: &mut Vec<u32>, register: u32, value: u64) {
    code.push(0x3C00_0000 | register << 21 | value as u32 >> 16);
    code.push(0x6000_0000 | register << 21 | register << 16 | value as u32 & 0xFFFF);
}

/// One case: its registers from r14 on, the word, and what it leaves from r15 on.
fn play(code: &mut Vec<u32>, word: u32) {
    let (source, target) = (word >> 21 & 31, word >> 16 & 31);
    code.extend([
        0xE80E_0000 | source << 21, // ld source,0(r14)
        0xE80E_0008 | target << 21, // ld target,8(r14)
        0xEA0E_0010,                // ld r16,16(r14)
        0x7E01_03A6,                // mtxer r16
        0xEA0E_0018,                // ld r16,24(r14)
        0x7E0F_F120,                // mtcrf 255,r16
        word,
        0xF80F_0000 | target << 21, // std target,0(r15)
        0x7E00_0026,                // mfcr r16
        0xFA0F_0008,                // std r16,8(r15)
        0x39CE_0020,                // addi r14,r14,32
        0x39EF_0010,                // addi r15,r15,16
    ]);
}
