//! A frame of the stack, which a 42X's lsku loads and its stsku stores: the library tells it as one access, though not every
//! word of it is accessed, and a fault can come between.

use crate::capture::Capture;
use crate::library::Access;
use crate::profile::Profile;

pub struct Frame {
    pub access: Access,
    /// Its words that memory has, with their addresses, before the step.
    words: Vec<(u32, u32)>,
    /// Those that the step changed.
    pub changed: Vec<Changed>,
}

pub struct Changed {
    pub address: u32,
    pub old: u32,
    pub new: u32,
}

/// Whether a word accesses a frame, by its line: the length of an access does not tell, since a frame can be as long as a block.
pub fn is_accessed_by(profile: Profile, word: u32) -> bool {
    let line = profile.disassemble(word).map_or(String::new(), |line| line.text);
    ["lsku ", "stsku "].iter().any(|mnemonic| line.starts_with(mnemonic))
}

impl Frame {
    pub fn before(capture: &Capture, access: Access) -> Frame {
        Frame { access, words: words(capture, access), changed: Vec::new() }
    }

    /// With what the step left.
    pub fn after(mut self, capture: &Capture) -> Frame {
        let pairs = self.words.iter().zip(words(capture, self.access));
        let changed = pairs.map(|(&(address, old), (_, new))| Changed { address, old, new });
        self.changed = changed.filter(|word| word.old != word.new).collect();
        self
    }

    pub fn verb(&self) -> &'static str {
        if self.access.writes {
            "store"
        } else {
            "load"
        }
    }

    /// The address of its last byte; addresses go on from FFFFFFFF at 0.
    pub fn last(&self) -> u32 {
        self.access.address.wrapping_add(self.access.bytes - 1)
    }
}

fn words(capture: &Capture, access: Access) -> Vec<(u32, u32)> {
    let addresses = (0..access.bytes).step_by(4).map(|offset| access.address.wrapping_add(offset));
    addresses.filter_map(|address| Some((address, capture.word_at(address)?))).collect()
}
