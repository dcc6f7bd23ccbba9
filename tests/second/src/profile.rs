//! The two cores that the manual describes, as far as they differ.

use crate::word::Kind;

/// Handed to what depends on it: which words are legal, the defined bits of DBCR and TCR, tw with TG, where a machine
/// check goes, and which lines there are.
#[derive(Clone, Copy, Debug, PartialEq, Eq)]
pub enum Profile {
    Ppe42,
    Ppe42x,
}

impl Profile {
    pub const BOTH: [Profile; 2] = [Profile::Ppe42, Profile::Ppe42x];

    pub fn is_42x(self) -> bool {
        self == Profile::Ppe42x
    }

    /// Whether the core has the instruction; which words are one, `Word::kind` says.
    pub fn has(self, kind: Kind) -> bool {
        use Kind::*;
        self.is_42x() || !matches!(kind, Lsku | Mulli | Mullw | Rldicl | Rldicr | Rldimi | Stsku)
    }

    /// The offset of the machine check's vector (Table 1.9).
    pub(crate) fn machine_check(self) -> u32 {
        match self {
            Profile::Ppe42 => 0x000,
            Profile::Ppe42x => 0x020,
        }
    }
}
