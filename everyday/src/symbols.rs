//! Names of addresses, from an ELF's symbols.

#[derive(Default)]
pub struct Symbols {
    /// By address; of several at one, the first is shown.
    all: Vec<Symbol>,
}

pub struct Symbol {
    pub name: String,
    pub address: u32,
    /// 0 where assembly gave none.
    pub size: u32,
    pub function: bool,
    /// A number and no place: found by name, shown for no address.
    pub absolute: bool,
}

/// Bytes of a name that are shown.
const LONGEST: usize = 200;

/// A symbol's name as it can be shown in a line.
pub fn readable(name: &[u8]) -> String {
    let name = String::from_utf8_lossy(&name[..name.len().min(LONGEST)]);
    name.chars().map(|letter| if letter.is_control() { '?' } else { letter }).collect()
}

impl Symbols {
    pub fn new(mut all: Vec<Symbol>) -> Symbols {
        all.sort_by_key(|symbol| (symbol.address, symbol.absolute, !symbol.function, symbol.size == 0));
        Symbols { all }
    }

    pub fn is_empty(&self) -> bool {
        self.all.is_empty()
    }

    /// Where symbols of this name are; several functions of a file each may have one.
    pub fn addresses_of(&self, name: &str) -> Vec<u32> {
        let mut found: Vec<u32> =
            self.all.iter().filter(|symbol| symbol.name == name).map(|symbol| symbol.address).collect();
        found.dedup();
        found
    }

    /// `<name+offset>` for an address inside a symbol, or behind one without a size.
    pub fn name_of(&self, address: u32) -> Option<String> {
        let known = &self.all[..self.first_from(address.checked_add(1))];
        let start = known.iter().rev().find(|symbol| !symbol.absolute)?.address;
        let symbol = known[self.first_from(Some(start))..].iter().find(|symbol| !symbol.absolute)?;
        let offset = address - start;
        if symbol.size != 0 && offset >= symbol.size {
            return None;
        }
        Some(if offset == 0 { format!("<{}>", symbol.name) } else { format!("<{}+{offset}>", symbol.name) })
    }

    /// How many symbols lie before an address; before the one past the last, all.
    fn first_from(&self, address: Option<u32>) -> usize {
        address.map_or(self.all.len(), |address| self.all.partition_point(|symbol| symbol.address < address))
    }

    /// The symbols that lie from `from` up to `to`.
    pub fn starting(&self, from: u32, to: u32) -> impl Iterator<Item = &Symbol> {
        let within = &self.all[self.first_from(Some(from))..self.first_from(Some(to))];
        within.iter().filter(|symbol| !symbol.absolute)
    }

    /// The address in hex, with its name where it has one.
    pub fn place(&self, address: u32) -> String {
        match self.name_of(address) {
            Some(name) => format!("{address:08X} {name}"),
            None => format!("{address:08X}"),
        }
    }

    /// The addresses from `start` up to `end` that have a symbol, in order and once each, with where a function there ends.
    pub fn labels(&self, start: u32, end: u32) -> Vec<(u32, u32)> {
        let mut labels: Vec<(u32, u32)> = Vec::new();
        for symbol in self.starting(start, end) {
            // where assembly gives no size, the word at the label is an instruction all the same
            let size = if symbol.function && symbol.size > 0 { symbol.size } else { 4 };
            let past = symbol.address.saturating_add(size);
            match labels.last_mut() {
                Some(last) if last.0 == symbol.address => last.1 = last.1.max(past),
                _ => labels.push((symbol.address, past)),
            }
        }
        labels
    }
}

#[cfg(test)]
mod tests {
    use super::*;

    fn symbol(name: &str, address: u32, size: u32, absolute: bool) -> Symbol {
        Symbol { name: name.into(), address, size, function: size > 0, absolute }
    }

    #[test]
    fn addresses_are_named() {
        let symbols = Symbols::new(vec![
            symbol("main", 0x10, 8, false),
            symbol("start", 0, 0, false),
            symbol("lent", 0x10, 0, true),
            symbol("label", 0x10, 0, false),
            symbol("main", 0x40, 8, false),
            symbol("last", 0xFFFF_FFFC, 4, false),
        ]);
        assert_eq!(symbols.place(0x14), "00000014 <main+4>");
        assert_eq!(symbols.place(0x18), "00000018");
        assert_eq!(symbols.place(8), "00000008 <start+8>");
        assert_eq!(symbols.place(0xFFFF_FFFF), "FFFFFFFF <last+3>");
        assert_eq!(symbols.addresses_of("lent"), [0x10]);
        assert_eq!(symbols.addresses_of("main"), [0x10, 0x40]);
        assert_eq!(Symbols::default().place(0), "00000000");
    }

    #[test]
    fn names_keep_to_their_line() {
        assert_eq!(readable(b"a\x1B[31m\nb"), "a?[31m?b");
        assert_eq!(readable(&[b'x'; 100_000]).len(), LONGEST);
    }
}
