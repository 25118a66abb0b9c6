//! The LFO shape model, cut down to what a remap curve is rendered from: a
//! lent table.

/// How many segments a remap curve is rendered with.
const SEGMENTS: usize = 1024;

/// A drawn point. Only the identity's two are ever drawn.
#[derive(Clone, Copy, Debug, PartialEq)]
pub struct Point;

impl Point {
    #[must_use]
    pub fn new(_: f32, _: f32) -> Self {
        Self
    }
}

/// The identity, or a table of 1,025 values that rendering reads back
/// unchanged.
#[derive(Clone, Debug, PartialEq)]
pub struct Shape(Option<Box<[f32]>>);

impl Shape {
    /// The identity: the default curve's, the only one made of points.
    #[must_use]
    pub fn new(_: &[Point]) -> Self {
        Self(None)
    }

    /// The first 1,025 values of `table`.
    ///
    /// # Panics
    ///
    /// If it has fewer.
    #[must_use]
    pub fn lent(table: &[f32]) -> Self {
        Self(Some(table[..=SEGMENTS].into()))
    }

    /// The value at `x`: for `i / 1024`, which is exact, the table's `i`th.
    #[must_use]
    pub fn value(&self, x: f32) -> f32 {
        match &self.0 {
            None => x,
            Some(table) => table[(x * SEGMENTS as f32) as usize],
        }
    }
}
