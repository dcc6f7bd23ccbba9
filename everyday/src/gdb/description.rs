//! What gdb is told of the core's registers. Its PowerPC wants r0 to r31; those that the core lacks are described and never there.

use crate::profile::Profile;
use crate::registers::{self, Bits, State, IAR, REGISTERS};

/// A register by gdb's number: its name there and, if the core has it, its place in a state.
pub struct Described {
    pub name: String,
    pub place: Option<usize>,
}

/// Those besides the general ones that gdb's PowerPC wants, in its order.
const WANTED: [&str; 6] = ["pc", "msr", "cr", "lr", "ctr", "xer"];

/// All of them, in the order of their numbers: r0 to r31, those that gdb wants besides, and the others.
pub fn registers() -> Vec<Described> {
    let general = (0..32).map(|number| format!("r{number}"));
    let mut all: Vec<Described> = general.chain(WANTED.map(String::from)).map(described).collect();
    let others = REGISTERS.iter().enumerate().filter(|(place, _)| all.iter().all(|known| known.place != Some(*place)));
    let others: Vec<Described> = others.map(|(_, register)| described(register.name.to_lowercase())).collect();
    all.extend(others);
    all
}

fn described(name: String) -> Described {
    let place = if name == "pc" { Some(IAR) } else { registers::place_of(&name) };
    Described { name, place }
}

/// The description, as gdb reads it.
pub fn xml(profile: Profile) -> String {
    let all = registers();
    let (wanted, others) = all.split_at(32 + WANTED.len());
    let head = "<?xml version=\"1.0\"?>\n<!DOCTYPE target SYSTEM \"gdb-target.dtd\">\n<target version=\"1.0\">\n";
    let wanted = feature("org.gnu.gdb.power.core", profile, wanted);
    let others = feature("ppe42.others", profile, others);
    format!("{head}<architecture>powerpc:common</architecture>\n{wanted}{others}</target>\n")
}

fn feature(name: &str, profile: Profile, registers: &[Described]) -> String {
    let types: String = registers.iter().filter_map(|register| flags(profile, register)).collect();
    let lines: String = registers.iter().map(|register| line(profile, register)).collect();
    format!("<feature name=\"{name}\">\n{types}{lines}</feature>\n")
}

fn line(profile: Profile, register: &Described) -> String {
    let name = &register.name;
    let kind = match name.as_str() {
        "pc" | "lr" | "srr0" => "code_ptr".into(),
        "r1" | "edr" | "dacr" => "data_ptr".into(),
        _ if flags(profile, register).is_some() => flags_name(name),
        _ => String::from("uint32"),
    };
    format!("<reg name=\"{name}\" bitsize=\"32\" type=\"{kind}\" group=\"general\"/>\n")
}

fn flags_name(name: &str) -> String {
    format!("{name}_fields")
}

/// The type of a register that has fields. gdb counts bits from the right.
fn flags(profile: Profile, register: &Described) -> Option<String> {
    let Bits { fields, .. } = REGISTERS[register.place?].bits(profile);
    let lines = fields.iter().map(|field| {
        let (start, end) = (31 - field.last, 31 - field.first);
        format!("<field name=\"{}\" start=\"{start}\" end=\"{end}\"/>\n", field.name)
    });
    let lines: String = lines.collect();
    (!lines.is_empty()).then(|| format!("<flags id=\"{}\" size=\"4\">\n{lines}</flags>\n", flags_name(&register.name)))
}

/// A register's word in hex; one that the core lacks is not there, which gdb shows as unavailable.
pub fn shown(state: &State, register: &Described) -> String {
    register.place.map_or("x".repeat(8), |place| format!("{:08x}", state.get(place)))
}

#[cfg(test)]
mod tests {
    use super::*;

    #[test]
    fn every_register_has_one_number() {
        let all = registers();
        let mut places: Vec<usize> = all.iter().filter_map(|register| register.place).collect();
        places.sort_unstable();
        assert_eq!(places, (0..REGISTERS.len()).collect::<Vec<_>>());
        assert_eq!(all.iter().filter(|register| register.place.is_none()).count(), 16);
        assert!(all[..32].iter().enumerate().all(|(number, register)| register.name == format!("r{number}")));
    }
}
