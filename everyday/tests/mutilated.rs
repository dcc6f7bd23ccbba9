//! Two hundred mutilated inputs, four hundred of S-records, and a hundred of lines to assemble: the program ends by itself, with
//! a status of its own and a sentence where it is not content.

mod common;

use common::{content, fed, folder, ppe42, text};
use std::fs;
use std::path::Path;

/// Numbers that look random, the same in every run.
struct Draw(u64);

impl Draw {
    fn below(&mut self, most: usize) -> usize {
        self.0 ^= self.0 << 13;
        self.0 ^= self.0 >> 7;
        self.0 ^= self.0 << 17;
        (self.0 % most as u64) as usize
    }
}

/// Bytes changed, cut off, put in, or doubled, mostly at the beginning and the end, where forms are told apart.
fn mutilate(bytes: &[u8], draw: &mut Draw) -> Vec<u8> {
    let mut bytes = bytes.to_vec();
    for _ in 0..1 + draw.below(6) {
        let length = bytes.len().max(1);
        let at = match draw.below(3) {
            0 => draw.below(length.min(120)),
            1 => length - 1 - draw.below(length.min(200)),
            _ => draw.below(length),
        };
        let value = [0, 1, 0x7F, 0x80, 0xFF, draw.below(256) as u8][draw.below(6)];
        match draw.below(8) {
            0 => bytes.truncate(at),
            1 => bytes.insert(at.min(bytes.len()), value),
            2 => bytes.extend_from_within(at.min(bytes.len())..),
            _ if at < bytes.len() => bytes[at] = value,
            _ => {}
        }
    }
    bytes
}

/// Lines taken out, doubled or put elsewhere, and letters changed.
fn mutilate_lines(bytes: &[u8], draw: &mut Draw) -> Vec<u8> {
    let mut lines: Vec<Vec<u8>> = bytes.split_inclusive(|&byte| byte == b'\n').map(Vec::from).collect();
    for _ in 0..1 + draw.below(3) {
        let (k, other) = (draw.below(lines.len()), draw.below(lines.len()));
        let column = draw.below(lines[k].len());
        match draw.below(4) {
            0 => drop(lines.remove(k)),
            1 => lines.insert(other, lines[k].clone()),
            2 => lines.swap(k, other),
            _ => lines[k][column] = b"0123456789ABCDEFfsS \r\n"[draw.below(22)],
        }
    }
    lines.concat()
}

/// The options of the profiles.
const CORES: [&[&str]; 2] = [&[], &["--42x"]];

/// The exit status.
fn plays(folder: &Path, core: &[&str], arguments: &[&str]) -> i32 {
    let output = ppe42(folder, &[arguments, core].concat());
    let said = text(&output.stderr);
    match output.status.code() {
        Some(0) => {}
        Some(1 | 2) => assert!(said.contains("ppe42: ") || arguments[0] == "diff", "{arguments:?}: {said}"),
        other => panic!("{arguments:?} ended with {other:?}: {said}"),
    }
    let is_2 = output.status.code() == Some(2);
    assert!(!(is_2 && folder.join("out.capture").exists()), "{arguments:?} wrote a file all the same");
    let _ = fs::remove_file(folder.join("out.capture"));
    output.status.code().unwrap_or_default()
}

#[test]
fn mutilated_inputs() {
    let folder = folder("mutilated");
    let make = ["make", "ledger.elf", "-o", "ledger.capture", "--memory", "16384", "--set", "DBCR=01000000"];
    content(ppe42(&folder, &make));
    let elf = fs::read(folder.join("ledger.elf")).unwrap();
    let capture = fs::read(folder.join("ledger.capture")).unwrap();
    let events = b"at 100 1\nevery 50 timer0 # ticks\nfrom 200 to 260 external+timer3\n1000*0 5 3*2\n";
    let mut draw = Draw(0x9E37_79B9_7F4A_7C15);
    let mut taken = 0;
    for turn in 0..50 {
        let core = CORES[turn % 2];
        fs::write(folder.join("bad.elf"), mutilate(&elf, &mut draw)).unwrap();
        fs::write(folder.join("bad.capture"), mutilate(&capture, &mut draw)).unwrap();
        fs::write(folder.join("bad.txt"), mutilate(events, &mut draw)).unwrap();
        let fourth: &[&str] = match draw.below(6) {
            0 => &["run", "bad.capture", "--out", "out.capture", "--steps", "100000"],
            1 => &["show", "bad.capture", "--memory", "0..20"],
            2 => &["list", "bad.capture", "--elf", "bad.elf"],
            3 => &["list", "bad.elf"],
            4 => &["srec", "bad.capture", "--out", "out.capture"],
            _ => &["diff", "ledger.capture", "bad.capture"],
        };
        let plays = [
            plays(&folder, core, &["make", "bad.elf", "-o", "out.capture", "--memory", "16384", "--anyway"]),
            plays(&folder, core, &["trace", "ledger.capture", "--elf", "bad.elf", "--steps", "50"]),
            plays(
                &folder,
                core,
                &["run", "ledger.capture", "--events", "bad.txt", "--out", "out.capture", "--steps", "2000"],
            ),
            plays(&folder, core, fourth),
        ];
        taken += plays.iter().filter(|&&status| status == 0).count();
    }
    assert!((20..180).contains(&taken), "{taken} of 200 were taken: they are not mutilated enough, or too much");
}

/// S-records as the stock tools and as the program itself write them: a capture comes of them, or a sentence and no file.
#[test]
fn mutilated_records() {
    let folder = folder("mutilated_records");
    content(ppe42(&folder, &["make", "ledger.elf", "-o", "ledger.capture", "--memory", "512"]));
    content(ppe42(&folder, &["srec", "ledger.capture", "-o", "own.srec"]));
    let files = ["ledger.srec", "own.srec"].map(|name| fs::read(folder.join(name)).unwrap());
    let mut draw = Draw(0x9E37_79B9_7F4A_7C15);
    let mut taken = 0;
    for k in 0..400 {
        let good = &files[k % 2];
        let bad = if k % 4 < 2 { mutilate(good, &mut draw) } else { mutilate_lines(good, &mut draw) };
        fs::write(folder.join("bad.srec"), &bad).unwrap();
        let status = plays(&folder, CORES[k % 2], &["make", "bad.srec", "-o", "out.capture", "--memory", "512"]);
        assert!(status != 1, "{}", String::from_utf8_lossy(&bad));
        taken += usize::from(status == 0);
    }
    assert!((20..200).contains(&taken), "{taken} of 400 were taken: they are not mutilated enough, or too much");
}

/// Good lines that were mutilated, and bytes that were never lines: each line that is not blank gets its word, or its refusal.
#[test]
fn mutilated_lines() {
    let folder = folder("mutilated_lines");
    let good =
        b"addi r3,0,(1+2)*-3\nlwz r3,0x10(r1)\nbc 12,2,-8\n\nrlwinm r3,r4,5,0,26\nmtspr 272,r3\nrfi\nlvd r28,8(0)\r\n";
    let mut draw = Draw(0x9E37_79B9_7F4A_7C15);
    let mut taken = 0;
    for k in 0..100 {
        let random: Vec<u8> = (0..2000).map(|_| draw.below(256) as u8).collect();
        let bytes = if k % 2 == 0 { mutilate(&good.repeat(10), &mut draw) } else { random };
        let output = fed(&folder, &[&["asm"], CORES[k / 2 % 2]].concat(), &bytes);
        let said = text(&output.stderr);
        let words = text(&output.stdout).lines().count();
        let refused = said.lines().filter(|line| line.starts_with("ppe42: line ")).count();
        let is_blank = |line: &&[u8]| line.strip_suffix(b"\r").unwrap_or(line).iter().all(|byte| b" \t".contains(byte));
        let lines = bytes.split(|&byte| byte == b'\n').filter(|line| !is_blank(line)).count();
        assert_eq!(words + refused, lines, "{said}");
        assert_eq!(output.status.code(), Some(i32::from(refused > 0)), "{said}");
        assert!(text(&output.stdout).lines().all(|word| word.len() == 8), "{said}");
        taken += words;
    }
    assert!(taken > 2000, "{taken} lines were taken: they are mutilated too much");
}
