//! lanes.rs's scalar path by name, and the casts it makes.

use super::Lane;

/// The sine polynomial's numbers.
pub const SIN: [f32; 5] = super::SIN;
/// The arctangent polynomial's numbers.
pub const ATAN: [f32; 8] = super::ATAN;
/// 2³².
pub const TWO_32: f32 = super::TWO_32;

#[inline]
#[must_use]
pub fn min(a: f32, b: f32) -> f32 {
    Lane::min(a, b)
}

#[inline]
#[must_use]
pub fn max(a: f32, b: f32) -> f32 {
    Lane::max(a, b)
}

#[inline]
#[must_use]
pub fn mul_add(a: f32, mul: f32, add: f32) -> f32 {
    Lane::mul_add(a, mul, add)
}

#[inline]
#[must_use]
pub fn abs(x: f32) -> f32 {
    Lane::abs(x)
}

#[inline]
#[must_use]
pub fn sqrt(x: f32) -> f32 {
    Lane::sqrt(x)
}

#[inline]
#[must_use]
pub fn floor(x: f32) -> f32 {
    Lane::floor(x)
}

#[inline]
#[must_use]
pub fn sign_bit(x: f32) -> f32 {
    Lane::sign_bit(x)
}

#[inline]
#[must_use]
pub fn exp2(x: f32) -> f32 {
    Lane::exp2(x)
}

#[inline]
#[must_use]
pub fn any(x: f32) -> bool {
    Lane::any(x)
}

/// Exponent, then mantissa.
#[inline]
#[must_use]
pub fn split(x: f32) -> (f32, f32) {
    Lane::split(x)
}

#[inline]
#[must_use]
pub fn add_words(a: u32, b: u32) -> u32 {
    <f32 as Lane>::add_words(a, b)
}

#[inline]
#[must_use]
pub fn pick_word(mask: f32, a: u32, b: u32) -> u32 {
    Lane::pick_word(mask, a, b)
}

#[inline]
#[must_use]
pub fn signed(word: u32) -> f32 {
    Lane::signed(word)
}

#[inline]
#[must_use]
pub fn to_word(x: f32) -> u32 {
    Lane::to_word(x)
}

#[inline]
#[must_use]
pub fn lookup(table: &[f32], segments: usize, x: f32) -> f32 {
    Lane::lookup(table, segments, x)
}

#[inline]
#[must_use]
pub fn pick(mask: f32, a: f32, b: f32) -> f32 {
    super::pick(mask, a, b)
}

#[inline]
#[must_use]
pub fn above(x: f32) -> f32 {
    super::above(x)
}

#[inline]
#[must_use]
pub fn sign(x: f32) -> f32 {
    super::sign(x)
}

#[inline]
#[must_use]
pub fn clamp(x: f32, lo: f32, hi: f32) -> f32 {
    super::clamp(x, lo, hi)
}

#[inline]
#[must_use]
pub fn smoothstep(t: f32) -> f32 {
    super::smoothstep(t)
}

#[inline]
#[must_use]
pub fn sin_cycles(t: f32) -> f32 {
    super::sin_cycles(t)
}

#[inline]
#[must_use]
pub fn cos_cycles(t: f32) -> f32 {
    super::cos_cycles(t)
}

#[inline]
#[must_use]
pub fn atan(x: f32) -> f32 {
    super::atan(x)
}

#[inline]
#[must_use]
pub fn tanh(x: f32) -> f32 {
    super::tanh(x)
}

#[inline]
#[must_use]
pub fn exp(x: f32) -> f32 {
    super::exp(x)
}

#[inline]
#[must_use]
pub fn ln(x: f32) -> f32 {
    super::ln(x)
}

#[inline]
#[must_use]
pub fn ln_cosh(x: f32) -> f32 {
    super::ln_cosh(x)
}

#[inline]
#[must_use]
pub fn tan(x: f32) -> f32 {
    super::tan(x)
}

/// A float as a word: toward zero, saturating, NaN 0.
#[inline]
#[must_use]
pub fn cast_word(x: f32) -> u32 {
    x as i32 as u32
}

/// A float as an index: toward zero, saturating, NaN 0.
#[inline]
#[must_use]
pub fn cast_index(x: f32) -> usize {
    x as usize
}

/// The float nearest a word, ties to even.
#[inline]
#[must_use]
pub fn nearest_u32(word: u32) -> f32 {
    word as f32
}

/// The float nearest a word read as signed, ties to even.
#[inline]
#[must_use]
pub fn nearest_i32(word: u32) -> f32 {
    word as i32 as f32
}
