//! Coupons drawn from a seed.

pub struct Draw(u64);

impl Draw {
    pub fn new(seed: u64) -> Draw {
        Draw(seed.wrapping_mul(2).wrapping_add(1))
    }

    /// Xorshift: the same numbers from the same seed, everywhere.
    pub fn below(&mut self, bound: u32) -> u32 {
        self.0 ^= self.0 << 13;
        self.0 ^= self.0 >> 7;
        self.0 ^= self.0 << 17;
        (self.0 >> 32) as u32 % bound
    }

    /// Slots anywhere in 26 bits. Most values rise with time, so that the least register does, steeply or not, so that kind 4 has many
    /// exceptions or so few that some of them have to search for a place in their table; a few are anything.
    pub fn coupons(&mut self, number: usize) -> Vec<u32> {
        let rise = [5, 5, 12, 30][self.below(4) as usize];
        (0..number)
            .map(|i| {
                let value = match self.below(40) {
                    0 => self.below(64),
                    _ => (i * rise / number) as u32 + self.below(6),
                };
                (value << 26) | self.below(1 << 26)
            })
            .collect()
    }
}
