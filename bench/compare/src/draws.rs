//! Numbers by chance, from a fixed seed: the same on every run.

pub struct Draws(u64);

impl Draws {
    pub fn from(seed: u64) -> Draws {
        Draws(seed)
    }

    /// The next number, below a limit of at most 31 bits.
    pub fn below(&mut self, limit: usize) -> usize {
        self.0 = self
            .0
            .wrapping_mul(6_364_136_223_846_793_005)
            .wrapping_add(1_442_695_040_888_963_407);
        (self.0 >> 33) as usize % limit
    }

    pub fn shuffle<T>(&mut self, list: &mut [T]) {
        for left in (2..=list.len()).rev() {
            list.swap(left - 1, self.below(left));
        }
    }
}
