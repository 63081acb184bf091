//! A small seeded generator (splitmix64), so that a seed names the same cases everywhere.

#[derive(Clone)]
pub struct Rng(u64);

impl Rng {
    pub fn new(seed: u64) -> Self {
        Self(seed)
    }

    pub fn next(&mut self) -> u64 {
        self.0 = self.0.wrapping_add(0x9E37_79B9_7F4A_7C15);
        let mut z = self.0;
        z = (z ^ (z >> 30)).wrapping_mul(0xBF58_476D_1CE4_E5B9);
        z = (z ^ (z >> 27)).wrapping_mul(0x94D0_49BB_1331_11EB);
        z ^ (z >> 31)
    }

    /// 0 to `limit` - 1. The slight bias of the remainder does not matter for choosing cases.
    pub fn below(&mut self, limit: u64) -> u64 {
        self.next() % limit
    }

    /// `low` to `high`, both met.
    pub fn within(&mut self, low: i64, high: i64) -> i64 {
        low + self.below((high - low + 1) as u64) as i64
    }

    /// True `part` times out of `whole`.
    pub fn chance(&mut self, part: u64, whole: u64) -> bool {
        self.below(whole) < part
    }

    pub fn flag(&mut self) -> bool {
        self.next() >> 63 != 0
    }

    pub fn byte(&mut self) -> u8 {
        (self.next() >> 56) as u8
    }

    pub fn word(&mut self) -> u16 {
        (self.next() >> 48) as u16
    }

    pub fn pick<T: Copy>(&mut self, choices: &[T]) -> T {
        choices[self.below(choices.len() as u64) as usize]
    }

    pub fn fill(&mut self, bytes: &mut [u8]) {
        for byte in bytes {
            *byte = self.byte();
        }
    }

    /// A mask as hosts have them: none, all, one bit, any.
    pub fn mask(&mut self) -> u8 {
        match self.below(6) {
            0 => 0,
            1 => 0xFF,
            2 => 1 << self.below(8),
            _ => self.byte(),
        }
    }
}
