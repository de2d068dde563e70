//! Numbers and texts for tests, the same each time.

pub struct Random(u64);

impl Random {
    pub fn new(seed: u64) -> Self {
        Self(seed)
    }

    pub fn below(&mut self, bound: usize) -> usize {
        self.0 = self.0.wrapping_mul(6_364_136_223_846_793_005).wrapping_add(1_442_695_040_888_963_407);
        (self.0 >> 33) as usize % bound
    }

    /// Fewer pieces than `bound`, joined.
    pub fn joined(&mut self, bound: usize, pieces: &[&[u8]]) -> Vec<u8> {
        (0..self.below(bound)).flat_map(|_| pieces[self.below(pieces.len())]).copied().collect()
    }
}
