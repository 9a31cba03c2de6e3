//! Random numbers from a seed (splitmix64). A case's numbers depend on its seed and its index alone, so any split of the work gives the same cases.

pub struct Rng {
    state: u64,
}

impl Rng {
    pub fn new(seed: u64, index: u64) -> Rng {
        let mut rng = Rng { state: seed ^ index.wrapping_mul(0xd1b5_4a32_d192_ed03) };
        rng.next();
        rng
    }

    pub fn next(&mut self) -> u64 {
        self.state = self.state.wrapping_add(0x9e37_79b9_7f4a_7c15);
        let mut z = self.state;
        z = (z ^ (z >> 30)).wrapping_mul(0xbf58_476d_1ce4_e5b9);
        z = (z ^ (z >> 27)).wrapping_mul(0x94d0_49bb_1331_11eb);
        z ^ (z >> 31)
    }

    /// 0 to n - 1
    pub fn below(&mut self, n: usize) -> usize {
        ((self.next() as u128 * n as u128) >> 64) as usize
    }

    pub fn within(&mut self, low: usize, high: usize) -> usize {
        low + self.below(high - low + 1)
    }

    /// true in one of n
    pub fn one_in(&mut self, n: usize) -> bool {
        self.below(n) == 0
    }

    pub fn pick<'a, T>(&mut self, from: &'a [T]) -> &'a T {
        &from[self.below(from.len())]
    }

    pub fn byte(&mut self) -> u8 {
        self.next() as u8
    }

    pub fn fill(&mut self, bytes: &mut [u8]) {
        for chunk in bytes.chunks_mut(8) {
            let word = self.next().to_le_bytes();
            chunk.copy_from_slice(&word[..chunk.len()]);
        }
    }

    /// A size from 1 to most: mostly small, now and then large.
    pub fn size(&mut self, most: usize) -> usize {
        match self.below(20) {
            0..=9 => self.within(1, most.min(12)),
            10..=15 => self.within(1, most.min(40)),
            16..=18 => self.within(1, most.min(150)),
            _ => self.within(1, most),
        }
    }

    /// Cuts `total` into two parts of at least one: evenly, anywhere, or all but one on a side.
    pub fn split(&mut self, total: usize) -> (usize, usize) {
        let first = match self.below(6) {
            0 => 1,
            1 => total - 1,
            2 => total / 2,
            _ => self.within(1, total - 1),
        };
        (first, total - first)
    }
}
