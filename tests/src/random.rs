//! A small seeded source of numbers (splitmix64): the same seed gives the same numbers everywhere.

#[derive(Clone)]
pub struct Random(u64);

impl Random {
    /// The source of one case: each seed, group and case has its own.
    pub fn of(seed: u64, group: &str, case: usize) -> Random {
        let mut random = Random(seed);
        for byte in group.bytes() {
            random.0 = random.word() ^ u64::from(byte);
        }
        random.0 = random.word() ^ case as u64;
        random.word();
        random
    }

    pub fn word(&mut self) -> u64 {
        self.0 = self.0.wrapping_add(0x9e37_79b9_7f4a_7c15);
        let mut z = self.0;
        z = (z ^ (z >> 30)).wrapping_mul(0xbf58_476d_1ce4_e5b9);
        z = (z ^ (z >> 27)).wrapping_mul(0x94d0_49bb_1331_11eb);
        z ^ (z >> 31)
    }

    /// A number from 0 to `bound` - 1; `bound` is above 0.
    pub fn below(&mut self, bound: usize) -> usize {
        ((u128::from(self.word()) * bound as u128) >> 64) as usize
    }

    /// A number from `low` to `high`.
    pub fn between(&mut self, low: usize, high: usize) -> usize {
        low + self.below(high - low + 1)
    }

    /// True in `part` of `whole` cases.
    pub fn chance(&mut self, part: usize, whole: usize) -> bool {
        self.below(whole) < part
    }

    /// One of the items.
    pub fn pick<'a, T>(&mut self, items: &'a [T]) -> &'a T {
        &items[self.below(items.len())]
    }

    /// The items in a random order.
    pub fn shuffle<T>(&mut self, items: &mut [T]) {
        for i in (1..items.len()).rev() {
            items.swap(i, self.below(i + 1));
        }
    }

    pub fn u8s(&mut self, len: usize) -> Vec<u8> {
        let mut cells = Vec::with_capacity(len + 8);
        while cells.len() < len {
            cells.extend_from_slice(&self.word().to_le_bytes());
        }
        cells.truncate(len);
        cells
    }

    pub fn u16s(&mut self, len: usize) -> Vec<u16> {
        let mut cells = Vec::with_capacity(len + 4);
        while cells.len() < len {
            let word = self.word();
            cells.extend_from_slice(&[word as u16, (word >> 16) as u16, (word >> 32) as u16, (word >> 48) as u16]);
        }
        cells.truncate(len);
        cells
    }

    pub fn u32s(&mut self, len: usize) -> Vec<u32> {
        let mut cells = Vec::with_capacity(len + 2);
        while cells.len() < len {
            let word = self.word();
            cells.extend_from_slice(&[word as u32, (word >> 32) as u32]);
        }
        cells.truncate(len);
        cells
    }

    pub fn usizes(&mut self, len: usize) -> Vec<usize> {
        (0..len).map(|_| self.word() as usize).collect()
    }
}
