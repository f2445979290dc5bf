//! Pseudo-random numbers (splitmix64) that are the same in each run. Each case has a seed of its
//! own, so one can be tried alone.

pub struct Random(u64);

impl Random {
    pub fn new(seed: u64, case: u64) -> Random {
        let mut random = Random(seed ^ case.wrapping_mul(0xd134_2543_de82_ef95));
        random.next();
        random
    }

    pub fn next(&mut self) -> u64 {
        self.0 = self.0.wrapping_add(0x9e37_79b9_7f4a_7c15);
        let z = (self.0 ^ self.0 >> 30).wrapping_mul(0xbf58_476d_1ce4_e5b9);
        let z = (z ^ z >> 27).wrapping_mul(0x94d0_49bb_1331_11eb);
        z ^ z >> 31
    }

    pub fn word(&mut self) -> u32 {
        (self.next() >> 32) as u32
    }

    /// A number below `limit`, which is above 0.
    pub fn below(&mut self, limit: usize) -> usize {
        ((u128::from(self.next()) * limit as u128) >> 64) as usize
    }

    /// A number from `low` to `high`, both included.
    pub fn between(&mut self, low: usize, high: usize) -> usize {
        low + self.below(high - low + 1)
    }

    /// True once in so many times.
    pub fn once_in(&mut self, times: usize) -> bool {
        self.below(times) == 0
    }

    pub fn one_of<T: Copy>(&mut self, things: &[T]) -> T {
        things[self.below(things.len())]
    }

    /// One of `count` places: the first and the last often, since that is where a loop goes wrong.
    pub fn place(&mut self, count: usize) -> usize {
        match self.below(4) {
            0 => 0,
            1 => count - 1,
            _ => self.below(count),
        }
    }

    /// A word that isn't the right one: near it, the same in its low bytes, huge, or any.
    pub fn wrong_word(&mut self, right: u32) -> u32 {
        let wrong = match self.below(8) {
            0 => right.wrapping_add(1),
            1 => right.wrapping_sub(1),
            2 => right ^ 1 << 8,
            3 => right ^ 1 << 16,
            4 => right ^ 1 << 31,
            5 => u32::MAX,
            6 => 0,
            _ => self.word(),
        };
        if wrong == right {
            right.wrapping_add(1)
        } else {
            wrong
        }
    }

    pub fn fill(&mut self, bytes: &mut [u8]) {
        for part in bytes.chunks_mut(8) {
            let noise = self.next().to_le_bytes();
            part.copy_from_slice(&noise[..part.len()]);
        }
    }

    pub fn shuffle<T>(&mut self, things: &mut [T]) {
        for k in (1..things.len()).rev() {
            things.swap(k, self.below(k + 1));
        }
    }
}
