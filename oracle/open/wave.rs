//! wave.rs on one lane. Modes go by number, a filter's pair by value.

use super::{Mode, Svf};

pub const VALVE_TANH_BIAS: f32 = super::VALVE_TANH_BIAS;
pub const VALVE_BIAS: f32 = super::VALVE_BIAS;
pub const VALVE_LN_COSH_BIAS: f32 = super::VALVE_LN_COSH_BIAS;

/// A slot's two states.
#[derive(Clone, Copy, Debug, PartialEq)]
pub struct Pair {
    pub ic1: f32,
    pub ic2: f32,
}

impl From<Pair> for Svf<f32> {
    fn from(pair: Pair) -> Self {
        Self {
            ic1: pair.ic1,
            ic2: pair.ic2,
        }
    }
}

impl From<Svf<f32>> for Pair {
    fn from(state: Svf<f32>) -> Self {
        Self {
            ic1: state.ic1,
            ic2: state.ic2,
        }
    }
}

fn mode(number: u32) -> Mode {
    Mode::ALL[number as usize]
}

#[inline]
#[must_use]
pub fn cutoff_harmonic(mode_number: u32, a: f32) -> f32 {
    super::cutoff_harmonic(mode(mode_number), a)
}

#[inline]
#[must_use]
pub fn damping(character: f32) -> f32 {
    super::damping(character)
}

#[inline]
#[must_use]
pub fn filter(
    mode_number: u32,
    harmonic: f32,
    increment: f32,
    k: f32,
    x: f32,
    pair: Pair,
) -> (f32, Pair) {
    let mut state = pair.into();
    let y = super::filter(mode(mode_number), harmonic, increment, k, x, &mut state);
    (y, state.into())
}

#[inline]
#[must_use]
pub fn drive(mode_number: u32, a: f32) -> f32 {
    super::drive(mode(mode_number), a)
}

#[inline]
#[must_use]
pub fn distort(mode_number: u32, a: f32, x: f32) -> f32 {
    super::distort(mode(mode_number), a, x)
}

#[inline]
#[must_use]
pub fn curve(mode_number: u32, x: f32) -> f32 {
    super::curve(mode(mode_number), x)
}

#[inline]
#[must_use]
pub fn integral(mode_number: u32, x: f32) -> f32 {
    super::integral(mode(mode_number), x)
}

#[inline]
#[must_use]
pub fn distort_smooth(mode_number: u32, a: f32, x: f32, pair: Pair) -> (f32, Pair) {
    let mut state = pair.into();
    let y = super::distort_smooth(mode(mode_number), a, x, &mut state);
    (y, state.into())
}
