//! What differs between two cores, old and new.

use crate::capture::Capture;
use crate::registers::{changed, State, REGISTERS};
use crate::say;
use serde_json::{json, Map, Value};

/// Bytes of a line of memory.
pub const LINE: usize = 16;

/// Registers, old and new.
pub fn show_registers(old: &State, new: &State, places: &[usize]) {
    for &place in places {
        say!("  {:<5}  {:08X}  {:08X}", REGISTERS[place].name, old.get(place), new.get(place));
    }
}

/// The first addresses of the lines that differ, where both have them.
pub fn lines(old: &[u8], new: &[u8]) -> Vec<usize> {
    let lines = old.chunks(LINE).zip(new.chunks(LINE)).enumerate();
    lines.filter(|(_, (old, new))| old != new).map(|(k, _)| k * LINE).collect()
}

/// Lines of memory, old and new.
pub fn show_memory(old: &[u8], new: &[u8], lines: &[usize]) {
    for &at in lines {
        say!("  {at:08X}  {}  old", words(line(old, at)));
        say!("            {}  new", words(line(new, at)));
    }
}

pub fn line(memory: &[u8], at: usize) -> &[u8] {
    &memory[at..memory.len().min(at + LINE)]
}

/// Bytes in hex, in groups of four.
pub fn words(bytes: &[u8]) -> String {
    bytes.chunks(4).map(hex).collect::<Vec<_>>().join(" ")
}

fn hex(bytes: &[u8]) -> String {
    bytes.iter().map(|byte| format!("{byte:02X}")).collect()
}

/// For scripts.
pub fn json(old: &Capture, new: &Capture) -> (Value, Value) {
    let mut registers = Map::new();
    for place in changed(&old.state, &new.state) {
        let words =
            json!({ "old": format!("{:08X}", old.state.get(place)), "new": format!("{:08X}", new.state.get(place)) });
        registers.insert(REGISTERS[place].name.into(), words);
    }
    let memory: Vec<Value> = lines(&old.memory, &new.memory)
        .into_iter()
        .map(|at| json!({ "address": format!("{at:08X}"), "old": hex(line(&old.memory, at)), "new": hex(line(&new.memory, at)) }))
        .collect();
    (registers.into(), memory.into())
}
