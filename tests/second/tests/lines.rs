//! Lines and their words: what request C-12 says, what 9.4 says of extended mnemonics, and the grammar tried by hand.

use second::assembler;
use second::disassembler::{self, spellings, Line};
use second::Profile::Ppe42;
use second::{Kind, Word};
use std::collections::BTreeSet;

fn assemble(line: &[u8]) -> (u32, u32, u32) {
    assembler::assemble(Ppe42, line)
}

fn disassemble(word: u32) -> Option<Line> {
    disassembler::disassemble(Ppe42, word)
}

fn word(line: &str) -> u32 {
    let (refusal, column, word) = assemble(line.as_bytes());
    assert_eq!((refusal, column), (0, 0), "{line}");
    word
}

fn assert_refused(refusal: u32, lines: &[(&str, u32)]) {
    for (line, column) in lines {
        assert_eq!(assemble(line.as_bytes()), (refusal, *column, 0), "{line}");
    }
}

#[test]
fn spellings_of_9_4() {
    let mnemonics: BTreeSet<_> = spellings(Ppe42).iter().map(|spelling| &spelling.mnemonic).collect();
    assert_eq!((spellings(Ppe42).len(), mnemonics.len()), (148, 148));
    assert!(Kind::ALL.iter().all(|kind| Ppe42.has(*kind) == mnemonics.contains(&kind.mnemonic().to_string())));
}

/// The words that firmware has for these.
#[test]
fn words_of_lines() {
    let words = [
        ("addi r3,0,5", 0x3860_0005),
        ("addi r3,r0,5", 0x3860_0005),
        ("addis r3,0,-1", 0x3C60_FFFF),
        ("addo. r3,r4,r5", 0x7C64_2E15),
        ("b -4", 0x4BFF_FFFC),
        ("ba -4", 0x4BFF_FFFE),
        ("bl 8", 0x4800_0009),
        ("bla 8", 0x4800_000B),
        ("bc 12,2,8", 0x4182_0008),
        ("bcctr 20,0", 0x4E80_0420),
        ("bclr 20,0", 0x4E80_0020),
        ("bclrl 20,0", 0x4E80_0021),
        ("cmplwi r3,65535", 0x2803_FFFF),
        ("cmpwi r3,-1", 0x2C03_FFFF),
        ("dcbz 0,r3", 0x7C00_1FEC),
        ("extsh r3,r4", 0x7C83_0734),
        ("lvd r3,8(r1)", 0x1461_0008),
        ("lwz r3,-4(0)", 0x8060_FFFC),
        ("mfcr r3", 0x7C60_0026),
        ("mfmsr r3", 0x7C60_00A6),
        ("mfspr r0,8", 0x7C08_02A6),
        ("mfspr r3,287", 0x7C7F_42A6),
        ("mtcr0 r3", 0x7C68_0120),
        ("mtmsr r3", 0x7C60_0124),
        ("mtspr 8,r0", 0x7C08_03A6),
        ("mullhw r3,r4,r5", 0x1064_2B50),
        ("neg r3,r4", 0x7C64_00D0),
        ("rfi", 0x4C00_0064),
        ("rlwimi. r3,r4,5,6,7", 0x5083_298F),
        ("rlwnm r3,r4,r5,0,31", 0x5C83_283E),
        ("srawi r3,r4,5", 0x7C83_2E70),
        ("stvdu r30,-16(r1)", 0x5BC1_FFF0),
        ("stwu r1,-32(r1)", 0x9421_FFE0),
        ("stwx r3,0,r5", 0x7C60_292E),
        ("subf r3,r4,r5", 0x7C64_2850),
        ("sync", 0x7C00_04AC),
        ("wrtee r3", 0x7C60_0106),
        ("wrteei 1", 0x7C00_8146),
    ];
    for (line, expected) in words {
        assert_eq!(word(line), expected, "{line}");
    }
}

/// What the pages of ori, or, nor, tw and rlwinm give for nop, mr, not, trap, mark, srwi and clrlwi.
#[test]
fn equivalents_of_extended_mnemonics() {
    assert_eq!(word("ori r0,r0,0"), 0x6000_0000);
    assert_eq!(word("or r3,r4,r4"), 0x7C83_2378);
    assert_eq!(word("nor r3,r4,r4"), 0x7C83_20F8);
    assert_eq!(word("tw 31,r0,r0"), 0x7FE0_0008);
    assert_eq!(word("tw 0,r3,r4"), 0x7C03_2008);
    assert_eq!(word("rlwinm r3,r4,32-5,5,31"), 0x5483_D97E);
    assert_eq!(word("rlwinm. r3,r4,0,16,31"), 0x5483_043F);
}

#[test]
fn expressions() {
    for (expression, value) in [
        ("0x10", 16),
        ("0xAbC", 0xABC),
        ("000012", 12),
        ("0x0000c", 12),
        ("2+3*4", 14),
        ("(2+3)*4", 20),
        ("20-4-8", 8),
        ("20-(4-8)", 24),
        ("--12", 12),
        ("4*-3+24", 12),
        ("-4*-3", 12),
        ("-(-(-(-(12))))", 12),
        ("2147483647-2147483635", 12),
        ("-2147483647-1+2147483647+13", 12),
    ] {
        assert_eq!(word(&format!("addi r3,0,{expression}")), 0x3860_0000 | value, "{expression}");
        assert_eq!(word(&format!("lwz r3,{expression}(r1)")), 0x8061_0000 | value, "{expression}");
    }
    assert_eq!(word("lwz r003,(4)(r000000000000000000001)"), 0x8061_0004);
    assert_eq!(word("mtspr 4*2,r0"), 0x7C08_03A6);
}

#[test]
fn columns_of_what_is_no_line() {
    let lines = [
        ("", 0),
        (" add", 0),
        ("ADD r3,r4,r5", 0),
        ("a", 1),
        ("li r3,5", 1),
        ("nop", 2),
        ("blr", 2),
        ("addx", 3),
        ("mulli r3,r4,5", 4),
        ("mullw r3,r4,r5", 4),
        ("cmpwibc 1,2,r3,0,8", 5),
        ("lvdx r3,r4,r5", 3),
        ("lsku r3,8(r1)", 1),
        ("add r3", 6),
        ("add r3,", 7),
        ("add  r3", 4),
        ("add r3, r4", 7),
        ("add r3,4,r5", 7),
        ("add R3,r4,r5", 4),
        ("add r3,r4,r5 ", 12),
        ("add r3,r4,r5,", 12),
        ("add r3,r0x4,r5", 9),
        ("addi r3,00,5", 9),
        ("addi r3,0x0,5", 9),
        ("addi r3,-0,5", 8),
        ("addic r3,0,5", 9),
        ("tw 31,0,0", 6),
        ("tw 31,r0,r0,1", 11),
        ("lwz r3,4x(r1)", 8),
        ("lwz r3,4(00)", 10),
        ("lwz r3,(r1)", 8),
        ("lwz r3,4(r1))", 12),
        ("lwz r3,4", 8),
        ("lwzu r3,4(0)", 10),
        ("rfi ", 3),
        ("b", 1),
        ("b 0x", 4),
        ("b 0X4", 3),
        ("b 0xg", 4),
        ("b 00x4", 4),
        ("b 4+", 4),
        ("b 4+*", 4),
        ("b +4", 2),
        ("b ()", 3),
        ("b (4", 4),
        ("b 4)", 3),
        ("b 4-r4", 4),
        ("b 4\n", 3),
        ("b 4\0", 3),
    ];
    assert_refused(11, &lines);
}

/// Brackets and minuses count together, those that are closed no more, and the brackets of (RA) never.
#[test]
fn depth() {
    let deep = |brackets, minuses| format!("{}{}4{}", "(".repeat(brackets), "-".repeat(minuses), ")".repeat(brackets));
    for brackets in 0..=16 {
        let most = deep(brackets, 16 - brackets);
        assert_eq!(word(&format!("lwz r3,{most}+{most}-{most}(r1)")) >> 16, 0x8061, "{brackets} brackets");
        let line = format!("lwz r3,{}(r1)", deep(brackets, 17 - brackets));
        assert_refused(11, &[(&line, 7 + 16)]);
    }
    assert_refused(11, &[("b -----------------4", 2 + 16), ("b (((((((((((((((((4", 2 + 16)]);
}

#[test]
fn length() {
    let zeros = |count| "0".repeat(count);
    assert_eq!(word(&format!("b {}4", zeros(253))), 0x4800_0004);
    assert_eq!(word(&format!("mfcr r{}4", zeros(249))), 0x7C80_0026);
    assert_refused(
        11,
        &[
            (&format!("b {}4", zeros(254)), 256),
            (&format!("b {}4", zeros(1000)), 256),
            (&format!("b {}x", zeros(254)), 256),
            (&format!("b {}x", zeros(253)), 255),
            (&format!("b {}+", zeros(253)), 256),
            (&format!("b x{}", zeros(1000)), 2),
        ],
    );
}

/// The first in the order of working out: left part, right part, join; inner before outer.
#[test]
fn columns_of_values_too_large() {
    let lines = [
        ("b 2147483648", 2),
        ("b 0x80000000", 2),
        ("b -2147483648", 3),
        ("b (2147483648)", 3),
        ("b 2147483647+1", 2),
        ("b -2147483647-2", 2),
        ("b (2147483647)+1", 2),
        ("b (2147483647+1)", 3),
        ("b 1+2147483648", 4),
        ("b 1+2147483647-1", 2),
        ("b 65536*32768", 2),
        ("b 1-65536*32768", 4),
        ("b 1-2*(3+65536*32768)", 9),
        ("b 2147483647+1*99999999999", 15),
        ("b -(-2147483647-1)", 2),
        ("b 4--(-2147483647-1)", 4),
        ("bc 99,2147483648,2147483649", 6),
        ("addi r99999999999999999999,0,2147483648", 29),
        ("mtspr 4294967304,r99", 6),
    ];
    assert_refused(12, &lines);
    // A line that is none comes first.
    assert_refused(11, &[("bc 99,2147483648,r", 17)]);
}

#[test]
fn operands_of_no_instruction() {
    let lines = [
        "addi r11,0,5",
        "addi r32,0,5",
        "addi r4294967299,0,5",
        "addi r3,0,32768",
        "addi r3,0,-32769",
        "ori r3,r4,-1",
        "ori r3,r4,65536",
        "lwz r3,32768(r1)",
        "b 2",
        "b 33554432",
        "b -33554436",
        "bc 12,2,32768",
        "bc 12,4,8",
        "bc 32,0,8",
        "bcctr 16,0",
        "tw 1,r0,r0",
        "wrteei 2",
        "wrteei -1",
        "rlwinm r3,r4,32,0,31",
        "rlwinm r3,r4,0,-1,31",
        "mfspr r3,2",
        "mfspr r3,1025",
        "mtspr 287,r3",
        "lwzu r3,4(r0)",
        "lwzu r3,4(r3)",
        "stwu r3,4(r0)",
        "lvd r10,8(r1)",
        "lvdu r3,8(r3)",
        "lvdu r3,8(r4)",
        "lvdu r31,8(r0)",
        "stvdu r3,8(r0)",
    ];
    assert_refused(6, &lines.map(|line| (line, 0)));
}

#[test]
fn edges_that_are_taken() {
    for line in [
        "addi r3,0,-32768",
        "ori r3,r4,65535",
        "b -33554432",
        "b 33554428",
        "bc 31,3,-32768",
        "bclr 0,0",
        "bcctr 4,3",
        "stwu r3,4(r3)",
        "lvd r3,8(r4)",
        "lvd r31,8(0)",
        "stvdu r3,8(r4)",
    ] {
        assert_eq!(disassemble(word(line)).unwrap().text, line);
    }
}

#[test]
fn fields_that_are_not_written() {
    for (set, line) in [
        (0x7FE0_0009, "tw 31,r0,r0"),
        (0x4E80_1820, "bclr 20,0"),
        (0x4E80_0C21, "bcctrl 20,0"),
        (0x7C60_18AC, "dcbf 0,r3"),
        (0x7FE3_222C, "dcbt r3,r4"),
    ] {
        let text = disassemble(set).unwrap();
        assert_eq!((&text.text[..], text.unwritten), (line, true), "{set:08X}");
        let written = disassemble(word(line)).unwrap();
        assert_eq!((&written.text[..], written.unwritten), (line, false));
    }
}

/// Of a sample of all words: the line makes the word again, without the fields that are not written.
#[test]
fn lines_make_their_words() {
    let mut legal = 0;
    for sample in (0..=u32::MAX).step_by(32_771) {
        let line = disassemble(sample);
        assert_eq!(line.is_some(), Word(sample).kind(Ppe42).is_some());
        let Some(line) = line else { continue };
        let made = word(&line.text);
        assert_eq!(made != sample, line.unwritten, "{sample:08X}");
        assert_eq!(disassemble(made).unwrap().text, line.text);
        legal += 1;
    }
    assert!(legal > 10_000);
}

/// The column as it is defined: how much of a line some line of the grammar starts with. All targets of three bytes; each
/// that a line starts with is a whole line after four more at most.
#[test]
fn columns_by_trying_every_line() {
    let mut lengths = vec![vec![b"b ".to_vec()]];
    for _ in 0..7 {
        lengths.push(longer(lengths.last().unwrap()));
    }
    let lines = lengths.iter().flatten().filter(|line| assemble(line).0 != 11);
    let starts: BTreeSet<_> = lines.flat_map(|line| (0..=line.len()).map(|end| &line[..end])).collect();
    let refused: Vec<_> = lengths[3].iter().filter(|line| assemble(line).0 == 11).collect();
    assert!(refused.len() < lengths[3].len());
    for line in refused {
        let column = (0..=line.len()).rev().find(|end| starts.contains(&line[..*end])).unwrap();
        assert_eq!(assemble(line), (11, column as u32, 0), "{}", line.escape_ascii());
    }
}

fn longer(lines: &[Vec<u8>]) -> Vec<Vec<u8>> {
    lines.iter().flat_map(|line| b"0x(-*)".map(|byte| [&line[..], &[byte]].concat())).collect()
}
