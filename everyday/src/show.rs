//! `show`: a capture for people.

use crate::args::Show;
use crate::capture::Capture;
use crate::changes::{line, words, LINE};
use crate::load;
use crate::profile::Profile;
use crate::registers::{halt_words, State, DBCR, HALT, MSR, REGISTERS};
use crate::say;
use crate::symbols::Symbols;
use std::process::ExitCode;

const COLUMNS: usize = 4;

pub fn show(profile: Profile, args: &Show) -> Result<ExitCode, String> {
    let capture = Capture::read(profile, &args.capture)?;
    let symbols = load::symbols(&args.elf)?;
    let range = args.memory.as_deref().map(|text| range(text, &capture)).transpose()?;
    say!("memory {} bytes", capture.memory.len());
    table(&capture.state);
    places(&capture.state, &symbols);
    for (place, _) in REGISTERS.iter().enumerate() {
        fields(&capture, place);
    }
    say!("halt   {}", halt_words(capture.state.get(HALT)));
    if let Some((from, to)) = range {
        memory(&capture.memory, from, to, &symbols);
    }
    Ok(ExitCode::SUCCESS)
}

fn table(state: &State) {
    for row in 0..REGISTERS.len().div_ceil(COLUMNS) {
        let places = row * COLUMNS..REGISTERS.len().min(row * COLUMNS + COLUMNS);
        let cells: Vec<String> =
            places.map(|place| format!("{:<5} {:08X}", REGISTERS[place].name, state.get(place))).collect();
        say!("{}", cells.join("   "));
    }
}

/// The registers that hold addresses of named code.
fn places(state: &State, symbols: &Symbols) {
    for (place, register) in REGISTERS.iter().enumerate() {
        if let (true, Some(name)) = (["IAR", "LR", "SRR0"].contains(&register.name), symbols.name_of(state.get(place)))
        {
            say!("{:<5}  at {name}", register.name);
        }
    }
}

/// What the bits mean: of MSR and DBCR always, of another register where it is not 0.
fn fields(capture: &Capture, place: usize) {
    let register = &REGISTERS[place];
    let word = capture.state.get(place);
    for field in register.bits(capture.profile).fields {
        let value = field.of(word);
        let means = field.means(value);
        if !means.is_empty() && (word != 0 || place == MSR || place == DBCR) {
            say!("{:<5}  {:<6} {value:<3} {means}", register.name, field.name);
        }
    }
}

fn range(text: &str, capture: &Capture) -> Result<(usize, usize), String> {
    load::range(text, capture.memory.len(), "the memory").map_err(|wrong| format!("--memory {text}: {wrong}"))
}

fn memory(memory: &[u8], from: usize, to: usize, symbols: &Symbols) {
    let mut at = from;
    while at < to {
        let end = to.min((at / LINE + 1) * LINE);
        let name = symbols.name_of(at as u32).unwrap_or_default();
        let line = format!("{at:08X}  {:<35}  {name}", words(&line(memory, at)[..end - at]));
        say!("{}", line.trim_end());
        at = end;
    }
}
