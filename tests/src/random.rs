//! Pseudo-random numbers with fixed seeds (splitmix64), so that every run tries the same cases and each case can be tried again alone.

pub struct Random {
    state: u64,
}

impl Random {
    pub fn new(seed: u64) -> Random {
        Random { state: seed }
    }

    pub fn next(&mut self) -> u64 {
        self.state = self.state.wrapping_add(0x9E37_79B9_7F4A_7C15);
        let mut mixed = self.state;
        mixed = (mixed ^ (mixed >> 30)).wrapping_mul(0xBF58_476D_1CE4_E5B9);
        mixed = (mixed ^ (mixed >> 27)).wrapping_mul(0x94D0_49BB_1331_11EB);
        mixed ^ (mixed >> 31)
    }

    pub fn below(&mut self, end: u64) -> u64 {
        self.next() % end
    }

    pub fn between(&mut self, least: u32, most: u32) -> u32 {
        least + self.below((most - least + 1) as u64) as u32
    }

    pub fn word(&mut self) -> u32 {
        self.next() as u32
    }

    pub fn byte(&mut self) -> u8 {
        self.next() as u8
    }

    /// True `part` times in `whole`.
    pub fn chance(&mut self, part: u64, whole: u64) -> bool {
        self.below(whole) < part
    }

    pub fn pick<T: Copy>(&mut self, choices: &[T]) -> T {
        choices[self.below(choices.len() as u64) as usize]
    }

    pub fn bytes(&mut self, count: usize) -> Vec<u8> {
        let mut bytes = Vec::with_capacity(count + 8);
        while bytes.len() < count {
            bytes.extend_from_slice(&self.next().to_le_bytes());
        }
        bytes.truncate(count);
        bytes
    }

    pub fn words(&mut self, count: usize) -> Vec<u32> {
        (0..count).map(|_| self.word()).collect()
    }

    /// A number that is wanted from 1 to `most`: mostly it is; else it is next to the range, or too large for a byte with a low byte in the
    /// range, or near 2^32.
    pub fn number(&mut self, most: u32) -> u32 {
        let inside = self.between(1, most);
        match self.below(80) {
            0 => 0,
            1 => most + 1,
            2 => most + self.between(1, 300),
            3 => 256 + inside,
            4 => 65_536 + inside,
            5 => u32::MAX - self.between(0, 300),
            6 => u32::MAX - 255 + inside,
            7 => self.word(),
            _ => inside,
        }
    }

    /// A length that is wanted to be at least `need`: mostly just enough, else longer or too short.
    pub fn length(&mut self, need: usize) -> usize {
        match self.below(48) {
            0 => 0,
            1 => need.saturating_sub(1),
            2 => self.below(need as u64 + 1) as usize,
            3..=5 => need + self.between(1, 40) as usize,
            _ => need,
        }
    }
}

/// The seed of one case of one stage.
pub fn seed_of(stage: u64, case: u64) -> u64 {
    Random::new(Random::new(stage).next() ^ case).next()
}
