//! The phase side: cases of it drawn from the generator, and the oracle's
//! answers. Every input is made by whole numbers, by a division by a power
//! of 2 or as a constant, so that another program can make the same.

use ruled::api::phase::{self, Slot};
use ruled::api::{self, curve};
use ruled::osc::LaneReads;

use crate::Input::{Float, Word};
use crate::{Generator, Hash, Leaf, NAN, pattern};

/// What a fact or a stretch answers to a mode above 69: 256 and the
/// refusal's number.
pub const REFUSED: u32 = 257;

/// The code of the first of [`PHASES`].
pub const FIRST: usize = 0x20;

/// The code of [`run`]'s read lists.
pub const APPLY: usize = 0x29;

fn f(bits: u32) -> f32 {
    f32::from_bits(bits)
}

/// A mode fact by number.
macro_rules! fact {
    ($name:ident) => {
        Leaf {
            name: stringify!($name),
            inputs: &[Word],
            answer: |[mode, _, _], _| match mode {
                0..=69 => u32::from(api::$name(mode)),
                _ => REFUSED,
            },
        }
    };
}

/// The operations of one answer, from code 20 on.
pub const PHASES: [Leaf; 9] = [
    fact!(source),
    fact!(fm_type),
    fact!(modulated),
    fact!(stage),
    fact!(oversampled),
    fact!(distortion),
    Leaf {
        name: "curve value",
        inputs: &[Float],
        answer: |[x, _, _], table| pattern(curve::value(&curve::lent(table), f(x))),
    },
    Leaf {
        name: "curve steepest",
        inputs: &[Word],
        answer: |[seed, _, _], _| pattern(curve::steepest(&curve::lent(&slope_table(seed)))),
    },
    // The mode is taken modulo 72, so that draws come to every mode and to
    // two that are refused.
    Leaf {
        name: "stretch",
        inputs: &[Word, Float, Float],
        answer: |[mode, amount, steepest], _| match mode % 72 {
            mode @ 0..=69 => pattern(phase::stretch(mode, f(amount), f(steepest))),
            _ => REFUSED,
        },
    },
];

/// A table for the steepest slope: 1,025 numbers from 0 to 2^-6 or less, to
/// 2^-13 by the seed's bits 1 to 3. With an odd seed a quarter of them are
/// NaN and a quarter negative.
#[must_use]
pub fn slope_table(seed: u32) -> Vec<f32> {
    let mut generator = Generator(seed);
    let size = f((157 + (seed >> 1 & 7)) << 23);
    (0..1025)
        .map(|_| {
            let draw = generator.draw();
            let x = (draw >> 8) as f32 / size;
            match draw & 3 {
                0 if seed & 1 == 1 => f(NAN),
                1 if seed & 1 == 1 => -x,
                _ => x,
            }
        })
        .collect()
}

/// What two slots map a word with, but for their modes and the curve.
#[derive(Clone, Copy, Debug)]
pub struct Case {
    pub amount: [f32; 2],
    pub character: [f32; 2],
    pub half: f32,
    pub inner: f32,
    pub word: u32,
}

/// 0, 1/2, 1, or a number from 0 to 1.
pub(crate) fn fraction(draw: u32) -> u32 {
    match draw & 7 {
        0 => 0x0000_0000,
        1 => 0x3f00_0000,
        2 => 0x3f80_0000,
        _ => ((draw >> 8) as f32 / 16_777_216.0).to_bits(),
    }
}

/// A half width, 2^-14 to 4, every other time a power of 2.
fn half_width(draw: u32) -> u32 {
    let digits = if draw & 16 == 0 { 0 } else { draw >> 9 };
    (128 - (draw & 15)) << 23 | digits
}

/// What slot 1 stretches slot 0's half width by: 1, or 1/16 to 16.
pub(crate) fn inner_stretch(draw: u32) -> u32 {
    match draw & 3 {
        0 => 0x3f80_0000,
        _ => (123 + (draw >> 2 & 7)) << 23 | draw >> 9,
    }
}

/// The floats that a rule may end at.
pub(crate) fn special(draw: u32) -> u32 {
    match draw >> 28 {
        0 => 0x0000_0000,
        1 => 0x8000_0000,
        2 => 0x0000_0001, // the least subnormal
        3 => 0x3380_0000, // 2^-24
        4 => 0x3f00_0000, // 1/2
        5 => 0x3f7f_ffff, // around 1
        6 => 0x3f80_0000,
        7 => 0x3f80_0001,
        8 => 0x4000_0000,  // 2
        9 => 0x4b80_0000,  // 2^24
        10 => 0x7f7f_ffff, // the largest
        11 => 0x7f80_0000, // infinity
        12 => 0xff80_0000,
        13 => 0xbf00_0000, // -1/2
        14 => 0xbf80_0000, // -1
        _ => NAN,
    }
}

/// A wild case's float: by `how` a tame one, a special one, or any pattern.
pub(crate) fn wild(how: u32, draw: u32, tame: u32) -> u32 {
    match how & 3 {
        0 => tame,
        1 => special(draw),
        _ => draw,
    }
}

/// A word: any, or one where a map has an edge. `amount` is the draw that
/// slot 0's amount is made of.
fn word(how: u32, draw: u32, amount: u32) -> u32 {
    let near = (draw & 0xff).wrapping_sub(128);
    match how & 7 {
        // around each quarter of the cycle
        0 => (draw & 0xc000_0000).wrapping_add(near),
        // which read as a whole cycle
        1 => draw | 0xffff_ff80,
        // which read as half a cycle
        2 => 0x7fff_ffc0 + (draw & 0x3f),
        // around a whole number of 2,048ths, which the steps' edges are at
        3 => (draw & 0xffe0_0000).wrapping_add(near),
        // around a whole number of n-ths, n from 1 to 1,024
        4 => {
            let n = (draw >> 8 & 0x3ff) + 1;
            ((u64::from(draw >> 18) << 32) / u64::from(n)) as u32
        }
        .wrapping_add(near),
        // around 1 - the amount, where Flip's edge is
        5 => near.wrapping_sub(amount & 0xffff_ff00),
        _ => draw,
    }
}

impl Case {
    /// Eight draws: how the others are read, the word, and the floats. A
    /// case that isn't wild has floats of the sizes that a render has.
    pub fn draw(generator: &mut Generator, is_wild: bool) -> Self {
        let [how, place, floats @ ..] = [0; 8].map(|_: u32| generator.draw());
        let [amount0, amount1, character0, character1, half, inner] = floats;
        let of = |at: u32, draw: u32, tame: u32| {
            f(if is_wild {
                wild(how >> at, draw, tame)
            } else {
                tame
            })
        };
        Self {
            amount: [
                of(8, amount0, fraction(amount0)),
                of(10, amount1, fraction(amount1)),
            ],
            character: [
                of(12, character0, fraction(character0)),
                of(14, character1, fraction(character1)),
            ],
            half: of(16, half, half_width(half)),
            inner: of(18, inner, inner_stretch(inner)),
            word: word(how, place, amount0),
        }
    }

    /// The read list of the two slots, without offsets: slot 1 maps first,
    /// then slot 0 with half width times `inner`.
    #[must_use]
    pub fn reads(&self, modes: [u32; 2], curve: &[f32]) -> LaneReads {
        let slot = |i: usize| Slot {
            mode: modes[i],
            character: self.character[i],
            curve,
        };
        let list = phase::start(self.word);
        let list = phase::apply(&slot(1), self.amount[1], self.half, &list);
        let list = phase::apply(&slot(0), self.amount[0], self.half * self.inner, &list);
        LaneReads {
            phase: list.word,
            gain: list.gain,
            count: if list.weighted { list.count } else { 0 },
        }
    }
}

/// A read list as nine words: its words, its gains' patterns, its count.
#[must_use]
pub fn nine(reads: &LaneReads) -> [u32; 9] {
    let [a, b, c, d] = reads.phase;
    let [e, f, g, h] = reads.gain.map(pattern);
    [a, b, c, d, e, f, g, h, reads.count as u32]
}

/// The hash of the read lists of `count` cases drawn from `seed`, wild ones
/// if the seed is odd. `modes` are those of slot 0 and slot 1.
#[must_use]
pub fn run(modes: [u32; 2], seed: u32, count: u32, curve: &[f32]) -> u64 {
    let mut generator = Generator(seed);
    let mut hash = Hash::default();
    for _ in 0..count {
        let case = Case::draw(&mut generator, seed & 1 == 1);
        for word in nine(&case.reads(modes, curve)) {
            hash.fold(word);
        }
    }
    hash.0
}
