//! A table of one cycle: enough for what the shaper reads.

/// A whole cycle in phase words.
pub const CYCLE: f64 = 4_294_967_296.0;

/// A lent cycle of 2,048 samples, its only frame and level.
#[derive(Clone, Debug)]
pub struct Table(Box<[f32]>);

impl Table {
    /// The first 2,048 samples of `cycle`.
    ///
    /// # Panics
    ///
    /// If it has fewer.
    #[must_use]
    pub fn lent(cycle: &[f32]) -> Self {
        Self(cycle[..2048].into())
    }

    #[must_use]
    pub fn frame_count(&self) -> usize {
        1
    }

    #[must_use]
    pub fn wave(&self, _level: usize, _frame: usize) -> Wave<'_> {
        Wave(&self.0)
    }
}

/// One frame of a table at one level.
#[derive(Clone, Copy, Debug)]
pub struct Wave<'a>(pub &'a [f32]);

impl Wave<'_> {
    /// The wave in a straight line between entry word / 2^21, rounded down,
    /// and the next, which after 2,047 is entry 0; each operation rounds, at
    /// an entry too (added: documents 01 and 02, E4; the crate's own read
    /// interpolates a padded level).
    #[inline(always)]
    #[must_use]
    pub fn read(self, word: u32) -> f32 {
        let at = (word >> 21) as usize;
        let (first, next) = (self.0[at], self.0[(at + 1) % 2048]);
        let fraction = (word & 0x1f_ffff) as f32 / 2_097_152.0;
        first + (next - first) * fraction
    }
}
