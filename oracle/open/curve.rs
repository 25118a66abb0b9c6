//! curve.rs over a lent table.

use lspk_dsp::lfo::Shape;

use super::RemapCurve;

/// The curve whose rendered table is the first 1,025 values of `table`.
#[must_use]
pub fn lent(table: &[f32]) -> RemapCurve {
    RemapCurve::new(&Shape::lent(table))
}

/// [`RemapCurve::value`] of a lent curve.
#[inline]
#[must_use]
pub fn value(curve: &RemapCurve, x: f32) -> f32 {
    curve.value(x)
}

/// Its steepest slope, kept to 1 to 16.
#[inline]
#[must_use]
pub fn steepest(curve: &RemapCurve) -> f32 {
    curve.steepest()
}

/// Its table, as rendered.
#[must_use]
pub fn table(curve: &RemapCurve) -> &[f32] {
    curve.table()
}
