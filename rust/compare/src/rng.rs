//! A small generator of pseudo-random numbers (xorshift64*).

/// The same seed gives the same numbers.
pub struct Rng(u64);

impl Rng {
    /// A generator of its own for each case of a seed.
    pub fn new(seed: u64, case: u64) -> Self {
        let mut mixed = seed ^ case.wrapping_mul(0x9E37_79B9_7F4A_7C15);
        mixed = (mixed ^ (mixed >> 30)).wrapping_mul(0xBF58_476D_1CE4_E5B9);
        mixed = (mixed ^ (mixed >> 27)).wrapping_mul(0x94D0_49BB_1331_11EB);
        Rng((mixed ^ (mixed >> 31)) | 1)
    }

    pub fn next(&mut self) -> u64 {
        self.0 ^= self.0 >> 12;
        self.0 ^= self.0 << 25;
        self.0 ^= self.0 >> 27;
        self.0.wrapping_mul(0x2545_F491_4F6C_DD1D)
    }

    /// A number under `limit`, which is over 0.
    pub fn below(&mut self, limit: usize) -> usize {
        ((self.next() >> 32) as usize * limit) >> 32
    }

    /// A number from `low` to `high`, both included.
    pub fn between(&mut self, low: usize, high: usize) -> usize {
        low + self.below(high - low + 1)
    }

    /// True in `percent` of a hundred cases.
    pub fn chance(&mut self, percent: usize) -> bool {
        self.below(100) < percent
    }

    pub fn pick<T: Copy>(&mut self, among: &[T]) -> T {
        among[self.below(among.len())]
    }

    pub fn byte(&mut self) -> u8 {
        self.next() as u8
    }

    pub fn bytes(&mut self, number: usize) -> Vec<u8> {
        let mut bytes: Vec<u8> =
            (0..number.div_ceil(8)).flat_map(|_| self.next().to_le_bytes()).collect();
        bytes.truncate(number);
        bytes
    }

    pub fn word(&mut self) -> u16 {
        self.next() as u16
    }
}
