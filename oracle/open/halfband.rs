//! halfband.rs over lent buffers, state and designs.

use super::{ATTENUATION_DB, Decimator, MAX_COEFS, MAX_STAGES};

/// One stage's coefficients.
#[derive(Clone, Copy, Debug, PartialEq)]
pub struct Design {
    pub coefs: [f32; MAX_COEFS],
    /// How many of them are used.
    pub count: usize,
}

/// The card's design for the stage `from_last` stages before the last.
#[must_use]
pub fn design(from_last: usize) -> Design {
    let super::Design { coefs, count } =
        super::design(super::transition(from_last), ATTENUATION_DB);
    Design { coefs, count }
}

/// The card's three designs.
#[must_use]
pub fn designs() -> [Design; MAX_STAGES] {
    std::array::from_fn(design)
}

/// A [`Decimator`] that keeps its state from call to call, as the crate's
/// oscillator has it.
pub struct Kept(Decimator);

impl Kept {
    /// From the first 72 × `lane_count` cells of `state`. Allocates.
    #[must_use]
    pub fn new(designs: &[Design; MAX_STAGES], lane_count: usize, state: &[f32]) -> Self {
        Self(Decimator {
            designs: designs.map(|d| super::Design {
                coefs: d.coefs,
                count: d.count,
            }),
            lane_count,
            state: state[..MAX_STAGES * MAX_COEFS * 2 * lane_count].into(),
        })
    }

    /// [`Decimator::process`] with level `None`.
    pub fn process(&mut self, factor: usize, lanes: usize, frames: usize, buffer: &mut [f32]) {
        self.0.process(None, factor, buffer, frames, lanes);
    }

    /// Copies its state to the first 72 × `lane_count` cells of `state`.
    pub fn state_to(&self, state: &mut [f32]) {
        state[..self.0.state.len()].copy_from_slice(&self.0.state);
    }
}

/// [`Kept::process`] on the first 72 × `lane_count` cells of `state`, which
/// are copied at each call.
pub fn process(
    designs: &[Design; MAX_STAGES],
    factor: usize,
    lane_count: usize,
    lanes: usize,
    frames: usize,
    buffer: &mut [f32],
    state: &mut [f32],
) {
    let mut decimator = Kept::new(designs, lane_count, state);
    decimator.process(factor, lanes, frames, buffer);
    decimator.state_to(state);
}
