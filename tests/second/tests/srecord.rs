//! S-records read and written: what request C-15 says, rule by rule.

use second::{srec_read, srec_write};

/// Bytes of lent memory where a test needs no other length.
const M: usize = 64;

/// Lines without data. The check bytes are FF less 03, 03, 03 + 01, 03, 04 + 12 + 34 + 56 and 05.
const S0: &str = "S0030000FC\n";
const S5_OF_0: &str = "S5030000FC\n";
const S5_OF_1: &str = "S5030001FB\n";
const S9: &str = "S9030000FC\n";
const S8: &str = "S8041234565F\n";
const S7: &str = "S70500000000FA\n";

const ENDS: [&str; 3] = [S9, S8, S7];

/// The types of data records, each with the zeros that lead its addresses and its end record.
const TYPES: [(&str, &str, &str); 3] = [("S1", "", S9), ("S2", "00", S8), ("S3", "0000", S7)];

/// What lent memory holds before a file is read.
fn before(length: usize) -> Vec<u8> {
    (0..length).map(|i| (i * 7 + i / 256 + 0xA5) as u8).collect()
}

/// The line of a start and the hex of address and data, with its count and its check byte, which is what the low byte
/// of the sum lacks of 255.
fn line(start: &str, rest: &str) -> String {
    let byte = |at| u32::from_str_radix(&rest[at..at + 2], 16).unwrap();
    let count = rest.len() as u32 / 2 + 1;
    let sum = count + (0..rest.len()).step_by(2).map(byte).sum::<u32>();
    format!("{start}{count:02X}{rest}{:02X}\n", 255 - sum % 256)
}

/// The refusal and its line, once it is seen that a refused file changed nothing.
fn answer(length: usize, file: &[u8]) -> (u64, u64) {
    let mut memory = before(length);
    let answer = srec_read(&mut memory, file);
    assert!(answer == 0 || memory == before(length), "{}", file.escape_ascii());
    (answer >> 32, answer & 0xFFFF_FFFF)
}

#[track_caller]
fn assert_refused(refusal: u64, number: u64, file: &str) {
    assert_eq!(answer(M, file.as_bytes()), (refusal, number), "{file}");
}

/// The file is read: memory has these bytes, each run of them from its address on, and every other byte stays.
#[track_caller]
fn assert_read(length: usize, file: &str, runs: &[(usize, &[u8])]) {
    let mut expected = before(length);
    for (address, bytes) in runs {
        expected[*address..address + bytes.len()].copy_from_slice(bytes);
    }
    let mut memory = before(length);
    assert_eq!(srec_read(&mut memory, file.as_bytes()), 0, "{file}");
    assert!(memory == expected, "{file}");
}

/// The file as it is, with lower-case hex, with carriage returns, and with both.
fn spellings(file: &str) -> [String; 4] {
    let lower = file.to_lowercase().replace('s', "S");
    let returned = |file: &str| file.replace('\n', "\r\n");
    [file.to_string(), lower.clone(), returned(file), returned(&lower)]
}

/// A file that is often given as an example of the format.
#[test]
fn hello_world() {
    let file = "S00F000068656C6C6F202020202000003C\n\
                S11F00007C0802A6900100049421FFF07C6C1B787C8C23783C6000003863000026\n\
                S11F001C4BFFFFE5398000007D83637880010014382100107C0803A64E800020E9\n\
                S111003848656C6C6F20776F726C642E0A0042\n\
                S5030003F9\n\
                S9030000FC\n";
    let words: [u32; 14] = [
        0x7C08_02A6, 0x9001_0004, 0x9421_FFF0, 0x7C6C_1B78, 0x7C8C_2378, 0x3C60_0000, 0x3863_0000, 0x4BFF_FFE5,
        0x3980_0000, 0x7D83_6378, 0x8001_0014, 0x3821_0010, 0x7C08_03A6, 0x4E80_0020,
    ];
    for file in spellings(file) {
        assert_read(96, &file, &[(0, &words.map(u32::to_be_bytes).concat()), (0x38, b"Hello world.\n\0")]);
    }
}

/// With S0 and S5 before, between and after the data records, the S0 with any address and data.
#[test]
fn the_three_types() {
    for (data, zeros, end) in TYPES {
        let lines = [
            line("S5", "0000"),
            line("S0", "000048656C6C6F"),
            line(data, &format!("{zeros}003EABCD")),
            line("S5", "0001"),
            line("S5", "0001"),
            line("S0", "FFFF"),
            line(data, &format!("{zeros}0003EF")),
            line(data, &format!("{zeros}0004FEDCBA")),
            line("S0", "0000"),
            line("S5", "0003"),
            end.to_string(),
        ];
        for file in spellings(&lines.concat()) {
            assert_read(M, &file, &[(0x3E, &[0xAB, 0xCD]), (3, &[0xEF, 0xFE, 0xDC, 0xBA])]);
        }
    }
}

/// Each line for itself has a carriage return or none, and each digit its case.
#[test]
fn mixed_spellings() {
    assert_read(M, "S1050010aBCd72\r\nS5030001fB\nS9030000Fc\r\n", &[(0x10, &[0xAB, 0xCD])]);
}

/// A count of FF.
#[test]
fn longest_records() {
    for (data, zeros, end) in TYPES {
        let bytes = 252 - zeros.len() / 2;
        let longest = line(data, &format!("{zeros}0001{}", "5A".repeat(bytes)));
        assert!(longest[2..].starts_with("FF"));
        assert_read(256, &format!("{longest}{end}"), &[(1, &vec![0x5A; bytes])]);
    }
    assert_read(M, &(line("S0", &"77".repeat(254)) + S9), &[]);
}

#[test]
fn malformed_lines() {
    for bad in [
        "", "\r", " ", "S", "S9", "S90", "S903", "S9030000", "S9030000F", "S9030000FCF", "S90300F2A", "S9030000FC00",
        "S9030000FC ", "S9030000FC\r\r", "S9030000FC\r ", "S9030000FC\0", "\rS9030000FC", " S9030000FC", "S9 030000FC",
        "S9+30000FC", "S9030000GC", "S9030000\u{C0}", "9030000FC", "SS9030000FC", "s9030000FC", "s1030000FC",
        "S4030000FC", "S6030000FC", "S604000000FB", "SA030000FC", "S:030000FC", "S/030000FC",
        // Check bytes: the sum itself, its negative, and those of other lines.
        "S903000003", "S9030000FD", "S9030000FB", "S0030000FF", "S5030000FB", "S1040000AA52",
        // Counts of one byte too few and too many, with the check bytes that go with them.
        "S9020000FD", "S9040000FB", "S1030000AA52", "S1050000AA50",
        // Counts of too few bytes for an address, for a check byte, and of bytes that are not there.
        "S90200FD", "S901FE", "S900FF", "S900", "S9FF", "S00200FD", "S50200FD", "S10200FD", "S2030000FC",
        "S304000000FB", "S8030000FC", "S704000000FB",
    ] {
        assert_refused(13, 1, &format!("{bad}\n"));
        assert_refused(13, 3, &format!("{S0}{S5_OF_0}{bad}\n{S9}"));
    }
}

#[test]
fn data_bytes_where_none_may_be() {
    for (start, rest) in [("S5", "000000"), ("S9", "000000"), ("S8", "00000000"), ("S7", "0000000000")] {
        assert_refused(13, 1, &line(start, rest));
        assert_refused(13, 1, &line(start, &format!("{rest}0102")));
    }
}

/// A good line with each byte in each place.
#[test]
fn changed_bytes() {
    for place in 0..S9.len() {
        for byte in 0..=255 {
            let mut changed = S9.as_bytes().to_vec();
            let same = changed[place] == byte;
            changed[place] = byte;
            let expected = match (place, byte) {
                (8, b'f') | (9, b'c') => (0, 0),
                // An S0, an S1 without data and an S5 of 0 are good lines too, but they end nothing.
                (1, b'0' | b'1' | b'5') => (16, 2),
                _ if same => (0, 0),
                _ => (13, 1),
            };
            assert_eq!(answer(M, &changed), expected, "{}", changed.escape_ascii());
        }
    }
}

#[test]
fn line_feeds() {
    for (data, zeros, end) in TYPES {
        let record = line(data, &format!("{zeros}000001"));
        let last = end.trim_end();
        assert_refused(13, 1, record.trim_end());
        assert_refused(13, 1, last);
        assert_refused(13, 2, &format!("{record}{last}"));
        assert_refused(13, 2, &format!("{record}{last}\r"));
        assert_refused(13, 1, &format!("{record}{end}").replace('\n', "\r"));
        assert_refused(13, 2, &format!("{record}\n{end}"));
        assert_refused(13, 2, &format!("{record}\r\n{end}"));
        assert_refused(13, 1, &format!("\n{record}{end}"));
    }
}

/// The first data record fixes the type, be it without data.
#[test]
fn mixed_types() {
    for (first, first_zeros, first_end) in TYPES {
        for (second, second_zeros, second_end) in TYPES.into_iter().filter(|(second, ..)| *second != first) {
            for data in ["", "11"] {
                let before = line(first, &format!("{first_zeros}0000{data}"));
                for other_data in ["", "22"] {
                    let other = line(second, &format!("{second_zeros}0010{other_data}"));
                    assert_refused(13, 2, &format!("{before}{other}{first_end}"));
                    assert_refused(13, 2, &format!("{before}{other}{second_end}"));
                    assert_refused(13, 5, &format!("{S0}{before}{S0}{S5_OF_1}{other}{first_end}"));
                }
            }
        }
    }
}

#[test]
fn lines_after_the_end_record() {
    let data = line("S1", "000001");
    for after in [S7, S8, S9, &data, S0, S5_OF_0, S5_OF_1, "\n", "\r\n", "\r", "S", "x\n"] {
        for end in ENDS {
            assert_refused(13, 2, &format!("{end}{after}"));
            assert_refused(13, 2, &format!("{end}{after}\n\n"));
        }
        assert_refused(13, 3, &format!("{data}{S9}{after}"));
    }
}

/// Memory of 64 bytes ends before 0040.
#[test]
fn data_bytes_outside() {
    for (data, zeros, end) in TYPES {
        let file = |rest: &str| line(data, &format!("{zeros}{rest}")) + end;
        assert_read(M, &file("003F01"), &[(0x3F, &[1])]);
        assert_read(M, &file("003C01020304"), &[(0x3C, &[1, 2, 3, 4])]);
        for rest in ["004001", "003F0102", "003C0102030405", "004101", "00FF01", "010001", "FFFF01", "FFFF0102"] {
            assert_refused(14, 1, &file(rest));
            assert_refused(14, 2, &format!("{S0}{}", file(rest)));
        }
    }
    // Addresses whose low bytes are inside.
    for (start, rest) in [("S2", "01000001"), ("S2", "80000001"), ("S3", "0100000001"), ("S3", "8000000001")] {
        assert_refused(14, 1, &line(start, rest));
    }
}

/// A byte after the last address of a type has the next number, and not 0.
#[test]
fn addresses_do_not_wrap() {
    let file = line("S1", "FFFFABCD") + &line("S1", "0000EF") + S9;
    assert_read(0x1_0020, &file, &[(0xFFFF, &[0xAB, 0xCD]), (0, &[0xEF])]);
    assert_eq!(answer(0x1_0000, file.as_bytes()), (14, 1));
    assert_eq!(answer(1 << 20, line("S2", "FFFFFFABCD").as_bytes()), (14, 1));
    assert_eq!(answer(1 << 20, line("S3", "FFFFFFFFABCD").as_bytes()), (14, 1));
}

/// They name no byte, so none outside and none twice, but they count and fix the type.
#[test]
fn records_without_data() {
    for (data, zeros, end) in TYPES {
        let named = line(data, &format!("{zeros}00000102"));
        let last = "F".repeat(zeros.len() + 4);
        for address in [format!("{zeros}0000"), format!("{zeros}0001"), format!("{zeros}0040"), last] {
            let empty = line(data, &address);
            let s5 = line("S5", "0002");
            assert_read(M, &format!("{empty}{end}"), &[]);
            assert_read(M, &format!("{empty}{empty}{s5}{end}"), &[]);
            assert_read(M, &format!("{named}{empty}{s5}{end}"), &[(0, &[1, 2])]);
            assert_read(M, &format!("{empty}{named}{s5}{end}"), &[(0, &[1, 2])]);
            assert_refused(17, 2, &format!("{empty}{S5_OF_0}{end}"));
            for other in ENDS.into_iter().filter(|other| *other != end) {
                assert_refused(16, 2, &format!("{empty}{other}"));
            }
        }
    }
}

/// Also where both records have the same value for the byte.
#[test]
fn bytes_named_twice() {
    for (data, zeros, end) in TYPES {
        let first = line(data, &format!("{zeros}001001020304"));
        let second = |rest: &str| line(data, &format!("{zeros}{rest}"));
        let (below, above) = (second("000E0506"), second("00140708"));
        assert_read(M, &format!("{below}{first}{above}{end}"), &[(14, &[5, 6, 1, 2, 3, 4, 7, 8])]);
        assert_read(M, &format!("{above}{first}{below}{end}"), &[(14, &[5, 6, 1, 2, 3, 4, 7, 8])]);
        for rest in ["001001020304", "001001", "001304", "00110203", "000F0501", "00130405", "000F050102030405"] {
            assert_refused(15, 2, &format!("{first}{}{end}", second(rest)));
            assert_refused(15, 3, &format!("{}{S0}{first}{end}", second(rest)));
            assert_refused(15, 4, &format!("{above}{first}{below}{}{end}", second(rest)));
        }
    }
}

#[test]
fn missing_ends() {
    assert_refused(16, 1, "");
    assert_refused(16, 2, S0);
    assert_refused(16, 3, &format!("{S0}{S5_OF_0}"));
    for (data, zeros, _) in TYPES {
        let record = line(data, &format!("{zeros}000001"));
        assert_refused(16, 2, &record);
        assert_refused(16, 4, &format!("{S0}{record}{S5_OF_1}"));
    }
}

/// A wrong end record is refused on its own line, whatever follows.
#[test]
fn ends_and_their_data() {
    for (data, zeros, right) in TYPES {
        let record = line(data, &format!("{zeros}000001"));
        assert_read(M, &format!("{record}{S5_OF_1}{right}"), &[(0, &[1])]);
        for wrong in ENDS.into_iter().filter(|end| *end != right) {
            for after in ["", right, wrong, "\n"] {
                assert_refused(16, 3, &format!("{record}{S5_OF_1}{wrong}{after}"));
            }
        }
    }
}

#[test]
fn ends_without_data() {
    for end in ENDS {
        assert_read(M, end, &[]);
        assert_read(M, &format!("{S0}{S5_OF_0}{end}"), &[]);
    }
}

#[test]
fn ends_of_any_address() {
    for (data, end, address) in [("S1", "S9", "FFFF"), ("S2", "S8", "ABCDEF"), ("S3", "S7", "FFFFFFFF")] {
        let record = line(data, &format!("{}01", "0".repeat(address.len())));
        assert_read(M, &line(end, address), &[]);
        assert_read(M, &(record + &line(end, address)), &[(0, &[1])]);
    }
}

/// Only data records count, and only those before it.
#[test]
fn counts() {
    let (first, second) = (line("S1", "000001"), line("S1", "000102"));
    let file = |count: &str| format!("{S0}{first}{S0}{S5_OF_1}{second}{}{S9}", line("S5", count));
    assert_read(M, &file("0002"), &[(0, &[1, 2])]);
    for count in ["0000", "0001", "0003", "0005", "0102", "0200", "FFFF"] {
        assert_refused(17, 6, &file(count));
    }
    assert_refused(17, 1, &format!("{S5_OF_1}{S9}"));
    assert_refused(17, 1, &format!("{S5_OF_1}{first}{S9}"));
    assert_refused(17, 2, &format!("{S0}{S5_OF_1}{S9}"));
}

/// The count is the number of the data records and not its low bytes, so that none fits more than FFFF of them.
#[test]
fn counts_are_exact() {
    let record = "S1030000FC\n";
    let most = record.repeat(0xFFFF);
    assert_read(M, &format!("{most}S503FFFFFE\n{S9}"), &[]);
    assert_read(M, &format!("{most}{record}{S9}"), &[]);
    assert_refused(17, 0x1_0001, &format!("{most}{record}{S5_OF_0}{S9}"));
    assert_refused(17, 0x1_0001, &format!("{most}{record}S503FFFFFE\n{S9}"));
    assert_refused(17, 0x1_0002, &format!("{most}{record}{record}{S5_OF_1}{S9}"));
}

/// A line for each refusal, where an S1 before it has named the last byte of memory.
fn offences() -> [(u64, String); 5] {
    [
        (13, "S4030000FC\n".into()),
        (14, line("S1", "004001")),
        (15, line("S1", "003F01")),
        (16, S7.into()),
        (17, S5_OF_0.into()),
    ]
}

#[test]
fn the_first_line_decides() {
    let named = line("S1", "003F01");
    for (refusal, first) in offences() {
        // Here the missing end record comes later.
        assert_refused(refusal, 2, &format!("{named}{first}"));
        for (_, second) in offences() {
            assert_refused(refusal, 2, &format!("{named}{first}{second}"));
            assert_refused(refusal, 3, &format!("{named}{S0}{first}{S0}{second}{S9}"));
        }
    }
}

/// 13 with each other refusal.
#[test]
fn malformed_comes_first() {
    let named = line("S1", "003F01");
    for (refusal, bad) in offences() {
        assert_refused(refusal, 2, &format!("{named}{bad}"));
        let (text, check) = bad.trim_end().split_at(bad.len() - 3);
        assert_refused(13, 2, &format!("{named}{text}{check}"));
        assert_refused(13, 2, &format!("{named}{text}{check} \n"));
        assert_refused(13, 2, &format!("{named}{text}\n"));
        assert_refused(13, 2, &format!("{named}{text}{}\n", if check == "00" { "01" } else { "00" }));
        assert_refused(13, 3, &format!("{named}{S9}{bad}"));
    }
    // Another type that is outside, names the byte again, or both.
    for rest in ["004001", "003F01", "003F0101"] {
        assert_refused(13, 2, &(named.clone() + &line("S2", &format!("00{rest}"))));
        assert_refused(13, 2, &(named.clone() + &line("S3", &format!("0000{rest}"))));
    }
    // Data bytes in a wrong end record and in an S5 of a wrong count.
    assert_refused(13, 2, &(named.clone() + &line("S7", "0000000001")));
    assert_refused(13, 2, &(named + &line("S5", "000001")));
}

/// 14 with 15, the byte outside after the one that is named.
#[test]
fn outside_comes_before_named_twice() {
    let named = line("S1", "003F01");
    assert_refused(15, 2, &(named.clone() + &line("S1", "003E0101")));
    assert_refused(14, 2, &(named.clone() + &line("S1", "003F0101")));
    assert_refused(14, 2, &(named + &line("S1", "003E010101")));
}

/// Refusal 1 comes before all others, in reading and in writing.
#[test]
fn memory_sizes() {
    let mut out = vec![0xEE; 79 * 32_769 + 15];
    for length in [0, 1, 31, 33, 48, (1 << 20) - 1, (1 << 20) + 1, (1 << 20) + 32] {
        for file in [S9, "", "\n", S5_OF_1, "S1"] {
            assert_eq!(answer(length, file.as_bytes()), (1, 0), "{length}");
        }
        let memory = before(length);
        assert_eq!(srec_write(&memory, &mut []), 1 << 32, "{length}");
        assert_eq!(srec_write(&memory, &mut out), 1 << 32, "{length}");
    }
    assert!(out.iter().all(|byte| *byte == 0xEE));
    for length in [32, 64, 96, (1 << 20) - 32, 1 << 20] {
        assert_eq!(answer(length, S9.as_bytes()), (0, 0), "{length}");
        assert_eq!(srec_write(&before(length), &mut out), 79 * (length as u64 / 32) + 15);
    }
}

/// Of the bytes 00 to 3F. Those of the first line sum to 496 and those of the second to 1,520; the check bytes are FF
/// less the low bytes of 37 + 496, which is 215 in hex, and of 37 + 32 + 1,520, which is 635.
const WRITTEN: [&str; 2] = [
    "S32500000000000102030405060708090A0B0C0D0E0F101112131415161718191A1B1C1D1E1FEA\n",
    "S32500000020202122232425262728292A2B2C2D2E2F303132333435363738393A3B3C3D3E3FCA\n",
];

#[test]
fn written_bytes() {
    assert_eq!((WRITTEN.map(str::len), S7.len()), ([79, 79], 15));
    let memory: Vec<u8> = (0..64).collect();
    for blocks in [1, 2] {
        let expected = WRITTEN[..blocks].concat() + S7;
        let mut out = [0xEE; 200];
        assert_eq!(srec_write(&memory[..32 * blocks], &mut out), 79 * blocks as u64 + 15);
        assert_eq!(out[..expected.len()], *expected.as_bytes());
        assert!(out[expected.len()..].iter().all(|byte| *byte == 0xEE), "the output beyond stays");
        assert_read(M, &expected, &[(0, &memory[..32 * blocks])]);
    }
}

/// What is written into an output that has just the bytes for it.
fn written(memory: &[u8]) -> Vec<u8> {
    let mut out = vec![0xEE; 79 * memory.len() / 32 + 15];
    assert_eq!(srec_write(memory, &mut out), out.len() as u64);
    out
}

#[test]
fn written_lines() {
    for length in [32, 96, 0x1_0020, 1 << 20] {
        let memory = before(length);
        let mut expected = String::new();
        for (i, block) in memory.chunks(32).enumerate() {
            let data: String = block.iter().map(|byte| format!("{byte:02X}")).collect();
            expected += &line("S3", &format!("{:08X}{data}", 32 * i));
        }
        expected += S7;
        assert!(written(&memory) == expected.as_bytes(), "{length}");
    }
}

/// Over another memory of the same length; a longer one keeps what follows.
#[test]
fn round_trips() {
    for length in [32, 64, 1024, 0x1_0020, 1 << 20] {
        let memory: Vec<u8> = before(length).iter().map(|byte| byte ^ 0x3C).collect();
        let file = written(&memory);
        let mut other = before(length);
        assert_eq!(srec_read(&mut other, &file), 0);
        assert!(other == memory, "{length}");
    }
    let mut longer = before(64);
    assert_eq!(srec_read(&mut longer, &written(&[0x99; 32])), 0);
    assert_eq!((&longer[..32], &longer[32..]), (&[0x99; 32][..], &before(64)[32..]));
    assert_eq!(answer(32, &written(&longer)), (14, 2), "a shorter one has no place for the second line");
}

#[test]
fn outputs_that_are_too_short() {
    for (length, needed) in [(32, 94), (64, 173), (1 << 20, 2_588_687)] {
        let memory = before(length);
        for short in [0, 15, 79, needed - 15, needed - 1] {
            let mut out = vec![0xEE; short];
            assert_eq!(srec_write(&memory, &mut out), 8 << 32, "{length} in {short}");
            assert!(out.iter().all(|byte| *byte == 0xEE));
        }
        assert_eq!(srec_write(&memory, &mut vec![0xEE; needed]), needed as u64);
    }
}
