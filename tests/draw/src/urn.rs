//! A seeded source of random values, weighted towards the edges.

/// Values at which sums, signs and halfwords turn.
const EDGES: [u32; 9] = [0, 1, 0x7FFF, 0x8000, 0xFFFF, 0x7FFF_FFFF, 0x8000_0000, 0xFFFF_8000, 0xFFFF_FFFF];

/// Where shift amounts turn.
const AMOUNTS: [u32; 10] = [0, 1, 30, 31, 32, 33, 62, 63, 64, 65];

/// SplitMix64: every seed gives a different, well mixed sequence.
pub struct Urn {
    state: u64,
}

impl Urn {
    pub fn new(seed: u64) -> Urn {
        Urn { state: seed }
    }

    /// The urn of one case of a seed, whatever the cases before it drew.
    pub fn of_case(seed: u64, case: u64) -> Urn {
        Urn::new(Urn::new(seed).draw() ^ case.wrapping_mul(0xD6E8_FEB8_6659_FD93))
    }

    pub fn draw(&mut self) -> u64 {
        self.state = self.state.wrapping_add(0x9E37_79B9_7F4A_7C15);
        let mut z = self.state;
        z = (z ^ z >> 30).wrapping_mul(0xBF58_476D_1CE4_E5B9);
        z = (z ^ z >> 27).wrapping_mul(0x94D0_49BB_1331_11EB);
        z ^ z >> 31
    }

    pub fn word(&mut self) -> u32 {
        (self.draw() >> 32) as u32
    }

    /// From 0 to `bound` - 1.
    pub fn below(&mut self, bound: u32) -> u32 {
        (((self.draw() >> 32) * bound as u64) >> 32) as u32
    }

    pub fn percent(&mut self, chance: u32) -> bool {
        self.below(100) < chance
    }

    pub fn pick<T: Copy>(&mut self, among: &[T]) -> T {
        among[self.below(among.len() as u32) as usize]
    }

    /// A register value: an edge, a neighbour of one, a shift amount, or anything.
    pub fn value(&mut self) -> u32 {
        match self.below(8) {
            0..=3 => self.pick(&EDGES),
            4 => self.pick(&EDGES).wrapping_add(self.below(5)).wrapping_sub(2),
            5 => self.pick(&AMOUNTS),
            6 => self.pick(&AMOUNTS) | self.word() << 6,
            _ => self.word(),
        }
    }

    /// Each bit of `bits` with an even chance.
    pub fn some_of(&mut self, bits: u32) -> u32 {
        self.word() & bits
    }

    pub fn fill(&mut self, bytes: &mut [u8]) {
        for chunk in bytes.chunks_mut(8) {
            chunk.copy_from_slice(&self.draw().to_be_bytes()[..chunk.len()]);
        }
    }
}
