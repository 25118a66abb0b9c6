//! The SIMD names without any SIMD: traits that nothing implements and a
//! dispatch that hands every kernel back.

use std::ops::{Add, Div, Mul, Neg, Sub};

/// Lanes of `u32`.
pub trait U32s: Copy {
    fn splat(value: u32) -> Self;
    #[must_use]
    fn wrapping_add(self, other: Self) -> Self;
    #[must_use]
    fn wrapping_sub(self, other: Self) -> Self;
    #[must_use]
    fn wrapping_mul(self, other: Self) -> Self;
    #[must_use]
    fn shl<const N: u32>(self) -> Self;
    #[must_use]
    fn shr<const N: u32>(self) -> Self;
}

/// Lanes of `f32`. Nothing implements it.
pub trait F32s:
    Copy
    + Add<Output = Self>
    + Sub<Output = Self>
    + Mul<Output = Self>
    + Div<Output = Self>
    + Neg<Output = Self>
{
    type U32s: U32s;
    const LANES: usize;

    fn splat(value: f32) -> Self;
    fn load(from: &[f32]) -> Self;
    fn store(self, to: &mut [f32]);
    #[must_use]
    fn mul_add(self, mul: Self, add: Self) -> Self;
    #[must_use]
    fn min(self, other: Self) -> Self;
    #[must_use]
    fn max(self, other: Self) -> Self;
    #[must_use]
    fn abs(self) -> Self;
    #[must_use]
    fn sqrt(self) -> Self;
    #[must_use]
    fn floor(self) -> Self;
    fn sum(self) -> f32;
    fn to_bits(self) -> Self::U32s;
    fn from_bits(bits: Self::U32s) -> Self;
    fn to_i32(self) -> Self::U32s;
    fn from_i32(value: Self::U32s) -> Self;
    fn gather<const N: usize>(table: &[f32], at: Self::U32s) -> [Self; N];
}

/// Work written once for every level.
pub trait Kernel: Sized {
    type Output;

    fn run<S: F32s>(self) -> Self::Output;
}

/// A SIMD level. The shaper names only this one.
#[derive(Clone, Copy, Debug, PartialEq, Eq)]
pub enum Level {
    Portable,
}

impl Level {
    /// So many that a render always prefers the scalar path.
    #[must_use]
    pub fn lanes(self) -> usize {
        usize::MAX
    }
}

/// The level this CPU dispatches.
#[must_use]
pub fn level() -> Level {
    Level::Portable
}

/// Hands `kernel` back: there is no level to run it at.
///
/// # Errors
///
/// Always.
pub fn dispatch_at<K: Kernel>(_: Level, kernel: K) -> Result<K::Output, K> {
    Err(kernel)
}

/// `2^x` across lanes: never called, as there is no `S`.
#[must_use]
pub fn exp2<S: F32s>(_: S) -> S {
    unreachable!("no type implements F32s")
}
