//! Numbers from a seed: xorshift64.
pub struct Random(u64);

impl Random {
    /// A stream of its own for each name and number.
    pub fn of(seed: u64, name: &str, number: u64) -> Random {
        let mixed = name
            .bytes()
            .fold(seed ^ number.wrapping_mul(0x9E37_79B9_7F4A_7C15), |h, b| h.wrapping_mul(0x100_0000_01B3) ^ b as u64);
        let mut random = Random(mixed | 1);
        (0..8).for_each(|_| {
            random.next();
        });
        random
    }

    pub fn next(&mut self) -> u64 {
        self.0 ^= self.0 << 13;
        self.0 ^= self.0 >> 7;
        self.0 ^= self.0 << 17;
        self.0
    }

    pub fn below(&mut self, n: usize) -> usize {
        ((self.next() >> 32) as usize * n) >> 32
    }

    pub fn between(&mut self, least: usize, most: usize) -> usize {
        least + self.below(most - least + 1)
    }

    /// Zero, the small codes, the largest values and others, each a quarter.
    pub fn byte(&mut self) -> u8 {
        let bits = self.next() >> 40;
        match bits & 3 {
            0 => 0,
            1 => (bits >> 2) as u8 & 7,
            2 => 0xFF - ((bits >> 2) as u8 & 1),
            _ => (bits >> 2) as u8,
        }
    }
}
