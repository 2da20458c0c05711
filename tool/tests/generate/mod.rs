//! Inputs for the comparison, made from seeds alone so that each one can be made again.

pub mod cells;
pub mod columns;
pub mod damage;
pub mod rows;

/// A xorshift generator; the first scrambling keeps neighbouring seeds apart.
pub struct Random {
    state: u64,
}

impl Random {
    pub fn new(seed: u64) -> Self {
        let mut state = seed.wrapping_add(0x9e37_79b9_7f4a_7c15);
        state = (state ^ (state >> 30)).wrapping_mul(0xbf58_476d_1ce4_e5b9);
        state = (state ^ (state >> 27)).wrapping_mul(0x94d0_49bb_1331_11eb);
        Random { state: state | 1 }
    }

    pub fn next(&mut self) -> u64 {
        self.state ^= self.state << 13;
        self.state ^= self.state >> 7;
        self.state ^= self.state << 17;
        self.state.wrapping_mul(0x2545_f491_4f6c_dd1d) >> 8 ^ self.state << 48
    }

    pub fn below(&mut self, end: usize) -> usize {
        (self.next() >> 1) as usize % end
    }

    pub fn between(&mut self, least: usize, greatest: usize) -> usize {
        least + self.below(greatest - least + 1)
    }

    pub fn one_in(&mut self, times: usize) -> bool {
        self.below(times) == 0
    }

    /// The same; never for 0.
    pub fn one_in_or_never(&mut self, times: usize) -> bool {
        times > 0 && self.one_in(times)
    }

    pub fn pick<T: Copy>(&mut self, from: &[T]) -> T {
        from[self.below(from.len())]
    }

    pub fn bytes(&mut self, size: usize) -> Vec<u8> {
        (0..size).map(|_| self.next() as u8).collect()
    }

    /// Up to `most` bytes of white space, often none.
    pub fn white_space(&mut self, most: usize) -> Vec<u8> {
        let size = if self.one_in(2) { 0 } else { self.below(most + 1) };
        (0..size).map(|_| self.pick(b"\t\n\r ")).collect()
    }
}
