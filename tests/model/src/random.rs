//! Repeatable random numbers for scenarios and tests (SplitMix64).

pub struct Random(u64);

impl Random {
    pub fn new(seed: u64) -> Random {
        Random(seed)
    }

    pub fn word(&mut self) -> u64 {
        self.0 = self.0.wrapping_add(0x9E37_79B9_7F4A_7C15);
        let mut mixed = self.0;
        mixed = (mixed ^ (mixed >> 30)).wrapping_mul(0xBF58_476D_1CE4_E5B9);
        mixed = (mixed ^ (mixed >> 27)).wrapping_mul(0x94D0_49BB_1331_11EB);
        mixed ^ (mixed >> 31)
    }

    /// Evenly from `least` to `most`, both included.
    pub fn between(&mut self, least: u64, most: u64) -> u64 {
        least + self.word() % (most - least + 1)
    }

    /// From `least` to `most`, small numbers as likely as large ones: evenly in the number of binary digits.
    pub fn spread(&mut self, least: u64, most: u64) -> u64 {
        let bits =
            self.between(u64::from(u64::BITS - least.leading_zeros()), u64::from(u64::BITS - most.leading_zeros()));
        let top = if bits >= 64 { u64::MAX } else { (1 << bits) - 1 };
        let bottom = if bits == 0 { 0 } else { 1 << (bits - 1) };
        self.between(bottom.max(least), top.min(most))
    }

    /// True once in `n` times.
    pub fn once_in(&mut self, n: u64) -> bool {
        self.between(1, n) == 1
    }

    /// One of several.
    pub fn one_of<T: Copy>(&mut self, choices: &[T]) -> T {
        choices[self.between(0, choices.len() as u64 - 1) as usize]
    }
}
