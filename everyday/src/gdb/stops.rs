//! Where the core is to stop: breakpoints, kept here and never written into memory, and watchpoints.

use crate::library::Access;
use std::collections::BTreeSet;

/// What is set, by the digit of its packet.
#[derive(Clone, Copy, Debug, Eq, Ord, PartialEq, PartialOrd)]
pub enum Kind {
    Software,
    Hardware,
    /// Of stores, of loads, of both.
    Store,
    Load,
    Both,
}

impl Kind {
    pub fn of(digit: u8) -> Option<Kind> {
        Some(match digit {
            b'0' => Kind::Software,
            b'1' => Kind::Hardware,
            b'2' => Kind::Store,
            b'3' => Kind::Load,
            b'4' => Kind::Both,
            _ => return None,
        })
    }

    fn is_breakpoint(self) -> bool {
        self <= Kind::Hardware
    }

    fn is_of(self, access: &Access) -> bool {
        match self {
            Kind::Store => access.writes,
            Kind::Load => !access.writes,
            Kind::Both => true,
            Kind::Software | Kind::Hardware => false,
        }
    }

    /// The name of a watchpoint in what is told of a stop.
    fn name(self) -> &'static str {
        match self {
            Kind::Load => "rwatch",
            Kind::Both => "awatch",
            _ => "watch",
        }
    }
}

#[derive(Clone, Copy, Debug, Eq, Ord, PartialEq, PartialOrd)]
pub struct Stop {
    pub kind: Kind,
    pub address: u32,
    /// Bytes that are watched; of a breakpoint the word's.
    pub bytes: u32,
}

/// A watchpoint that an access met, and the first byte of it that was accessed.
#[derive(Clone, Copy, Debug, PartialEq)]
pub struct Met {
    pub name: &'static str,
    pub address: u32,
}

/// Watchpoints at most.
const MOST_WATCHED: usize = 1024;

pub struct Stops {
    all: BTreeSet<Stop>,
    /// A byte for each word of memory, as the library wants them: 1 where there is a breakpoint.
    words: Vec<u8>,
}

impl Stops {
    /// For so many bytes of memory.
    pub fn new(memory: usize) -> Stops {
        Stops { all: BTreeSet::new(), words: vec![0; memory / 4] }
    }

    pub fn is_empty(&self) -> bool {
        self.all.is_empty()
    }

    /// Whether it can be set: it is inside memory, and a breakpoint is at a word.
    pub fn set(&mut self, stop: Stop) -> bool {
        let end = stop.address as usize + stop.bytes as usize;
        let fits = stop.bytes > 0 && end <= 4 * self.words.len();
        let good = match stop.kind.is_breakpoint() {
            true => stop.address % 4 == 0,
            false => self.watched().count() < MOST_WATCHED,
        };
        if fits && good {
            self.all.insert(stop);
            self.mark(stop);
        }
        fits && good
    }

    pub fn unset(&mut self, stop: Stop) {
        self.all.remove(&stop);
        self.mark(stop);
    }

    fn mark(&mut self, stop: Stop) {
        let is_here = |other: &Stop| other.kind.is_breakpoint() && other.address / 4 == stop.address / 4;
        let set = self.all.iter().any(is_here);
        if let (true, Some(word)) = (stop.kind.is_breakpoint(), self.words.get_mut(stop.address as usize / 4)) {
            *word = set.into();
        }
    }

    /// As the library wants them, if there are breakpoints.
    pub fn words(&self) -> Option<&[u8]> {
        self.all.iter().any(|stop| stop.kind.is_breakpoint()).then_some(&self.words)
    }

    pub fn is_at(&self, iar: u32) -> bool {
        self.words.get(iar as usize / 4) == Some(&1)
    }

    pub fn watches(&self) -> bool {
        self.watched().next().is_some()
    }

    fn watched(&self) -> impl Iterator<Item = &Stop> {
        self.all.iter().filter(|stop| !stop.kind.is_breakpoint())
    }

    /// The first watchpoint that an access meets.
    pub fn met(&self, access: &Access) -> Option<Met> {
        let mut of_it = self.watched().filter(|stop| stop.kind.is_of(access));
        of_it.find_map(|stop| Some(Met { name: stop.kind.name(), address: first_common(stop, access)? }))
    }
}

/// The first byte that is both watched and accessed; the bytes of an access go on from FFFFFFFF at 0.
fn first_common(stop: &Stop, access: &Access) -> Option<u32> {
    let into = stop.address.wrapping_sub(access.address);
    let onto = access.address.wrapping_sub(stop.address);
    if onto < stop.bytes {
        Some(access.address)
    } else {
        (into < access.bytes).then_some(stop.address)
    }
}

#[cfg(test)]
mod tests {
    use super::*;

    fn stop(kind: Kind, address: u32, bytes: u32) -> Stop {
        Stop { kind, address, bytes }
    }

    #[test]
    fn breakpoints_are_at_words_of_memory() {
        let mut stops = Stops::new(32);
        for (address, good) in [(0, true), (28, true), (2, false), (32, false), (u32::MAX - 3, false)] {
            assert_eq!(stops.set(stop(Kind::Software, address, 4)), good, "{address}");
        }
        assert_eq!(stops.words(), Some(&[1, 0, 0, 0, 0, 0, 0, 1][..]));
        for never_set in [stop(Kind::Software, 2, 4), stop(Kind::Software, 28, 2), stop(Kind::Hardware, 28, 4)] {
            stops.unset(never_set);
        }
        assert!(stops.is_at(0) && stops.is_at(28), "what was not set takes nothing with it");
        stops.set(stop(Kind::Hardware, 0, 4));
        stops.unset(stop(Kind::Software, 0, 4));
        assert!(stops.is_at(0), "one of the other kind is left");
        stops.unset(stop(Kind::Hardware, 0, 4));
        stops.unset(stop(Kind::Hardware, 28, 4));
        assert!(!stops.is_at(0) && stops.is_at(28), "one of the other kind was meant");
        stops.unset(stop(Kind::Software, 28, 4));
        assert_eq!(stops.words(), None);
    }

    #[test]
    fn watchpoints_meet_accesses_that_have_a_byte_of_theirs() {
        let mut stops = Stops::new(64);
        assert!(!stops.set(stop(Kind::Store, 0, 0)) && !stops.set(stop(Kind::Store, 62, 4)));
        assert!(stops.set(stop(Kind::Store, 10, 4)) && stops.set(stop(Kind::Load, 40, 1)));
        assert!(stops.watches() && stops.words().is_none());
        let met =
            |address, bytes, writes| stops.met(&Access { address, bytes, writes }).map(|met| (met.name, met.address));
        assert_eq!(met(8, 4, true), Some(("watch", 10)));
        assert_eq!(met(12, 4, true), Some(("watch", 12)));
        assert_eq!(met(0, 32, true), Some(("watch", 10)));
        assert_eq!(met(40, 4, false), Some(("rwatch", 40)));
        assert_eq!(met(u32::MAX - 3, 16, true), Some(("watch", 10)));
        for (address, bytes, writes) in [(8, 2, true), (14, 4, true), (10, 4, false), (40, 4, true), (41, 4, false)] {
            assert_eq!(met(address, bytes, writes), None, "{address}");
        }
    }
}
