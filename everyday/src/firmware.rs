//! Firmware into memory: an ELF for 32-bit PowerPC, S-records, or a raw binary that begins at address 0.

use crate::capture::Capture;
use crate::library::{self, BLOCK, MOST};
use crate::profile::Profile;
use crate::srecords;
use crate::symbols::{readable, Symbol, Symbols};
use object::elf::{
    FileHeader32, ProgramHeader32, EM_PPC, ET_EXEC, PF_X, PT_LOAD, SHF_ALLOC, SHF_EXECINSTR, SHT_NOBITS,
};
use object::elf::{SHN_ABS, SHN_UNDEF, SHT_SYMTAB, STT_FILE, STT_FUNC, STT_SECTION};
use object::read::elf::{FileHeader, ProgramHeader, SectionHeader, Sym};
use object::Endianness::{self, Big};

type Header = FileHeader32<Endianness>;
type Segment = ProgramHeader32<Endianness>;

pub struct Firmware {
    pub memory: Vec<u8>,
    pub entry: u32,
    pub symbols: Symbols,
    pub code: Code,
}

/// Where the code is.
pub enum Code {
    /// First addresses and words.
    Known(Vec<(u32, Vec<u32>)>),
    /// The file does not tell; what it is, and that its words are not checked.
    Untold(&'static str),
}

pub fn is_elf(file: &[u8]) -> bool {
    file.starts_with(b"\x7FELF")
}

/// The firmware that a file of this name is.
pub fn load(name: &str, file: &[u8], lent: usize) -> Result<Firmware, String> {
    let of_file = |wrong: String| format!("{name}: {wrong}");
    if let Some(profile) = Capture::profile_of(file) {
        let option = if profile == Profile::Ppe42 { "" } else { " --42x" };
        let plays = format!("./ppe42 run{option} plays it, with --set for other registers");
        return Err(of_file(format!("it is a capture already; {plays}")));
    }
    if is_elf(file) {
        load_elf(file, lent).map_err(of_file)
    } else if srecords::is_meant(file) {
        load_records(file, lent).map_err(|wrong| format!("{name}, {wrong}"))
    } else {
        load_raw(file, lent).map_err(of_file)
    }
}

/// What is wrong begins with the line's number.
fn load_records(file: &[u8], lent: usize) -> Result<Firmware, String> {
    let mut memory = vec![0; lent];
    library::srec_read(&mut memory, file).map_err(|refused| srecords::sentence(file, lent, refused))?;
    let code = Code::Untold("S-records: their words are not checked");
    Ok(Firmware { memory, entry: srecords::entry(file), symbols: Symbols::default(), code })
}

fn load_raw(file: &[u8], lent: usize) -> Result<Firmware, String> {
    if file.is_empty() {
        return Err("it is empty; name a firmware".into());
    }
    if file.len() > lent {
        return Err(format!("it has {} bytes and the memory {lent}; {}", file.len(), more(file.len() as u64)));
    }
    let mut memory = file.to_vec();
    memory.resize(lent, 0);
    let code = Code::Untold("a raw binary: its words are not checked");
    Ok(Firmware { memory, entry: 0, symbols: Symbols::default(), code })
}

/// What to do where so many bytes are wanted.
pub fn more(bytes: u64) -> String {
    match bytes.next_multiple_of(BLOCK as u64) {
        more if more <= MOST as u64 => format!("lend more, as with --memory {more}"),
        _ => format!("make it smaller or link it lower: {MOST} bytes are the most that can be lent"),
    }
}

pub fn load_elf(file: &[u8], lent: usize) -> Result<Firmware, String> {
    let header = header(file)?;
    let segments = loaded(header, file)?;
    let mut memory = vec![0; lent];
    for segment in &segments {
        let (start, end) = span(segment);
        if end > lent as u64 {
            return Err(past(header, file, segment, lent));
        }
        let bytes = bytes(segment, file)?;
        memory[start as usize..start as usize + bytes.len()].copy_from_slice(bytes);
    }
    let entry = header.e_entry(Big);
    if entry % 4 != 0 {
        return Err(format!("its entry {entry:08X} is no multiple of 4; link it again"));
    }
    let from_file = |segment: &&Segment| {
        let start = u64::from(segment.p_paddr(Big));
        (start..start + u64::from(segment.p_filesz(Big))).contains(&u64::from(entry))
    };
    if !segments.iter().any(from_file) {
        return Err(format!(
            "nothing is loaded at its entry {entry:08X}; link it again, with load addresses as it runs"
        ));
    }
    Ok(Firmware { memory, entry, symbols: symbols_of(header, file)?, code: Code::Known(code(header, file)?) })
}

/// The segments that are put into memory, none over another.
fn loaded<'a>(header: &'a Header, file: &'a [u8]) -> Result<Vec<&'a Segment>, String> {
    let all = header.program_headers(Big, file).map_err(damaged)?;
    let loaded: Vec<&Segment> = all.iter().filter(|segment| segment.p_type(Big) == PT_LOAD).collect();
    if loaded.iter().any(|segment| segment.p_filesz(Big) > segment.p_memsz(Big)) {
        return Err("a segment is longer in the file than in memory; link it again".into());
    }
    let loaded: Vec<&Segment> = loaded.into_iter().filter(|segment| segment.p_memsz(Big) > 0).collect();
    if overlap(loaded.iter().map(|segment| span(segment)).collect()) {
        return Err("two of its segments overlap; link it again".into());
    }
    Ok(loaded)
}

/// From where up to where an ELF has something loaded.
pub fn parts(file: &[u8]) -> Result<Vec<(u64, u64)>, String> {
    Ok(loaded(header(file)?, file)?.into_iter().map(span).collect())
}

/// From the load address up to the end.
fn span(segment: &Segment) -> (u64, u64) {
    let start = u64::from(segment.p_paddr(Big));
    (start, start + u64::from(segment.p_memsz(Big)))
}

fn overlap(mut spans: Vec<(u64, u64)>) -> bool {
    spans.sort_unstable();
    spans.windows(2).any(|pair| pair[1].0 < pair[0].1)
}

fn bytes<'a>(segment: &Segment, file: &'a [u8]) -> Result<&'a [u8], String> {
    segment.data(Big, file).map_err(|()| "a segment lies past the end of the file; have it sent again, whole".into())
}

/// The names of an ELF's addresses.
pub fn symbols(file: &[u8]) -> Result<Symbols, String> {
    if !is_elf(file) {
        return Err("it is no ELF, and so has no symbols; name the ELF that the capture was made of".into());
    }
    symbols_of(header(file)?, file)
}

fn header(file: &[u8]) -> Result<&Header, String> {
    let wanted = "compile and link for 32-bit big-endian PowerPC (docs/FIRMWARE.md)";
    match (file.get(4), file.get(5)) {
        (Some(1), Some(2)) => {}
        (Some(2), _) => return Err(format!("it is an ELF of 64 bits; {wanted}")),
        (_, Some(1)) => return Err(format!("it is a little-endian ELF; {wanted}")),
        _ => return Err("it begins as an ELF and is none; have it sent again, whole".into()),
    }
    let header = Header::parse(file).map_err(damaged)?;
    if header.e_machine(Big) != EM_PPC {
        return Err(format!("it is an ELF for another machine (number {}); {wanted}", header.e_machine(Big)));
    }
    if header.e_type(Big) != ET_EXEC {
        return Err(format!("it is an ELF that is not linked to run at fixed addresses; {wanted}"));
    }
    Ok(header)
}

fn damaged(error: object::Error) -> String {
    format!("it is a damaged ELF ({error}); have it sent again, whole, or link it again")
}

/// A segment past the memory, by the first of its sections that is.
fn past(header: &Header, file: &[u8], segment: &Segment, lent: usize) -> String {
    let (start, end) = span(segment);
    let (what, start, end) =
        section_past(header, file, segment, lent as u64).unwrap_or(("a segment".into(), start, end));
    let last = end - 1;
    format!("{what} ({start:08X} to {last:08X}) lies past the memory of {lent} bytes; {}", more(span(segment).1))
}

fn section_past(header: &Header, file: &[u8], segment: &Segment, lent: u64) -> Option<(String, u64, u64)> {
    let sections = header.sections(Big, file).ok()?;
    let (start, end) = span(segment);
    for section in sections.iter().filter(|section| section.sh_flags(Big) & SHF_ALLOC != 0) {
        let offset = section.sh_addr(Big).wrapping_sub(segment.p_vaddr(Big));
        let at = start + u64::from(offset);
        let past = at + u64::from(section.sh_size(Big));
        if section.sh_size(Big) > 0 && past <= end && past > lent {
            let name = readable(sections.section_name(Big, section).ok()?);
            return Some((format!("section {name}"), at, past));
        }
    }
    None
}

fn symbols_of(header: &Header, file: &[u8]) -> Result<Symbols, String> {
    let sections = header.sections(Big, file).map_err(damaged)?;
    let table = sections.symbols(Big, file, SHT_SYMTAB).map_err(damaged)?;
    let mut all = Vec::new();
    for symbol in table.iter() {
        let name = readable(symbol.name(Big, table.strings()).unwrap_or_default());
        let kind = symbol.st_type();
        let section = symbol.st_shndx(Big);
        if name.is_empty() || kind == STT_FILE || kind == STT_SECTION || section == SHN_UNDEF {
            continue;
        }
        all.push(Symbol {
            name,
            address: symbol.st_value(Big),
            size: symbol.st_size(Big),
            function: kind == STT_FUNC,
            absolute: section == SHN_ABS,
        });
    }
    Ok(Symbols::new(all))
}

/// The executable sections or, where the ELF names none, the executable segments.
fn code(header: &Header, file: &[u8]) -> Result<Vec<(u32, Vec<u32>)>, String> {
    let mut found: Vec<(u32, &[u8])> = Vec::new();
    for section in header.sections(Big, file).map_err(damaged)?.iter() {
        let flags = SHF_ALLOC | SHF_EXECINSTR;
        if section.sh_flags(Big) & flags == flags && section.sh_type(Big) != SHT_NOBITS {
            found.push((section.sh_addr(Big), section.data(Big, file).map_err(damaged)?));
        }
    }
    if found.is_empty() {
        for segment in loaded(header, file)?.iter().filter(|segment| segment.p_flags(Big) & PF_X != 0) {
            found.push((segment.p_vaddr(Big), bytes(segment, file)?));
        }
    }
    let spans: Vec<(u64, u64)> =
        found.iter().map(|&(at, bytes)| (u64::from(at), u64::from(at) + bytes.len() as u64)).collect();
    if spans.iter().map(|(start, end)| end - start).sum::<u64>() > MOST as u64 || overlap(spans) {
        return Err(format!("its code overlaps, or has more than {MOST} bytes; link it again"));
    }
    let word = |bytes: &[u8]| u32::from_be_bytes([bytes[0], bytes[1], bytes[2], bytes[3]]);
    Ok(found.into_iter().map(|(at, bytes)| (at, bytes.chunks_exact(4).map(word).collect())).collect())
}

/// A word of the firmware's code that is no instruction of the core.
pub struct Lacking {
    pub address: u32,
    pub word: u32,
}

/// How many words the code has, and which of them the core lacks. Zero words from the end of a function up to the next label
/// or the section's end are fill, and neither counted nor named.
pub fn lacking(profile: Profile, code: &[(u32, Vec<u32>)], symbols: &Symbols) -> (usize, Vec<Lacking>) {
    let mut counted = 0;
    let mut found = Vec::new();
    for (start, words) in code {
        let labels = symbols.labels(*start, start.saturating_add(4 * words.len() as u32));
        let mut labels = labels.iter().peekable();
        let mut function_end = 0;
        let mut zeros = Vec::new();
        for (address, &word) in (*start..).step_by(4).zip(words) {
            while let Some(&&(_, past)) = labels.peek().filter(|&&&(label, _)| label <= address) {
                function_end = function_end.max(past);
                zeros.clear();
                labels.next();
            }
            if word == 0 && address >= function_end {
                zeros.push(Lacking { address, word });
                continue;
            }
            counted += zeros.len() + 1;
            found.append(&mut zeros);
            if !profile.legal(word) {
                found.push(Lacking { address, word });
            }
        }
    }
    (counted, found)
}
