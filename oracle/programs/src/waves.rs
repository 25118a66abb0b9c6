//! The wave side: sequences of samples through one slot drawn from the
//! generator, and the oracle's answers. Inputs are made so that another
//! program can make the same, as in [`phases`](crate::phases).

use ruled::api::wave::{self, Pair};
use ruled::api::{Card, Lent, PER_CYCLE, Settings, State, lanes};

use crate::Input::{Float, Word};
use crate::phases::{fraction, wild};
use crate::{Generator, Hash, Leaf, pattern};

/// The code of the first of [`WAVES`].
pub const FIRST: usize = 0x30;

/// The code of [`run`]'s sequences.
pub const SHAPE: usize = 0x36;

fn f(bits: u32) -> f32 {
    f32::from_bits(bits)
}

/// An operation of a mode, taken modulo 70, and of floats.
macro_rules! by_mode {
    ($name:ident x) => {
        Leaf {
            name: stringify!($name),
            inputs: &[Word, Float],
            answer: |[mode, x, _], _| pattern(wave::$name(mode % 70, f(x))),
        }
    };
    ($name:ident a x) => {
        Leaf {
            name: stringify!($name),
            inputs: &[Word, Float, Float],
            answer: |[mode, a, x], _| pattern(wave::$name(mode % 70, f(a), f(x))),
        }
    };
}

/// The operations of one answer, from code 30 on.
pub const WAVES: [Leaf; 6] = [
    by_mode!(curve x),
    by_mode!(integral x),
    by_mode!(drive x),
    by_mode!(distort a x),
    by_mode!(cutoff_harmonic x),
    Leaf {
        name: "damping",
        inputs: &[Float],
        answer: |[character, _, _], _| pattern(wave::damping(f(character))),
    },
];

/// What a slot shapes a sample with, but for its mode, and the state that it
/// starts from where it doesn't carry the last sample's.
#[derive(Clone, Copy, Debug)]
pub struct Case {
    pub percent: f32,
    pub character: f32,
    /// `None` for a slot without a source.
    pub source: Option<f32>,
    pub step: u32,
    pub x: f32,
    pub fresh: Option<Pair>,
}

/// 0, 50, 100, or a number from 0 to 128.
pub(crate) fn percent(draw: u32) -> u32 {
    match draw & 7 {
        0 => 0x0000_0000,
        1 => 0x4248_0000,
        2 => 0x42c8_0000,
        _ => ((draw >> 8) as f32 / 131_072.0).to_bits(),
    }
}

/// A number from -1 to 1.
pub(crate) fn sample(draw: u32) -> u32 {
    ((draw >> 8) as f32 / 8_388_608.0 - 1.0).to_bits()
}

/// The same sample as the last, or one that a distortion finds just apart
/// from it or just together with it: 1 % off, above 1 in proportion.
#[must_use]
pub fn near(how: u32, last: f32) -> Option<f32> {
    Some(match how & 15 {
        0 | 1 => last,
        2 => last * f(0x3f7d_70a3), // around 0.99
        3 => last * f(0x3f7d_70a4),
        4 => last * f(0x3f7d_70a5),
        5 => last * f(0x3f81_4afd), // around 1 / 0.99
        6 => last * f(0x3f81_4afe),
        7 => last + f(0x3c23_d70a), // 0.01
        8 => last - f(0x3c23_d70b),
        _ => return None,
    })
}

impl Case {
    /// The start of a sequence.
    #[must_use]
    pub fn start() -> Self {
        Self {
            percent: 0.0,
            character: 0.0,
            source: None,
            step: 0,
            x: 0.0,
            fresh: None,
        }
    }

    /// The case after this one, of eight draws: how the others are read, the
    /// sample, the amount, the character, the source, the step and the
    /// state. Three times of four the amount stays. A case that isn't wild
    /// has floats of the sizes that a render has.
    #[must_use]
    pub fn next(&self, generator: &mut Generator, is_wild: bool) -> Self {
        let [how, x, amount, character, source, step, ic1, ic2] =
            [0; 8].map(|_: u32| generator.draw());
        let of = |at: u32, draw: u32, tame: u32| {
            f(if is_wild {
                wild(how >> at, draw, tame)
            } else {
                tame
            })
        };
        let is_fresh = if is_wild {
            how >> 20 & 3 == 0
        } else {
            how >> 20 & 63 == 0
        };
        Self {
            percent: if how >> 26 & 3 == 0 {
                of(8, amount, percent(amount))
            } else {
                self.percent
            },
            character: of(10, character, fraction(character)),
            source: (how >> 28 & 7 != 0).then(|| of(12, source, sample(source))),
            step: if is_wild { step } else { step >> 6 },
            x: near(how, self.x).unwrap_or_else(|| of(14, x, sample(x))),
            fresh: is_fresh.then(|| Pair {
                ic1: of(16, ic1, sample(ic1)),
                ic2: of(18, ic2, sample(ic2)),
            }),
        }
    }

    /// Cycles a sample.
    #[must_use]
    pub fn increment(&self) -> f32 {
        lanes::nearest_i32(self.step) * PER_CYCLE
    }

    /// The sample shaped by the filter or the distortion itself, at the
    /// amount as it is.
    #[must_use]
    pub fn alone(&self, mode: u32, state: Pair) -> (f32, Pair) {
        let a = self.percent * 0.01;
        match mode {
            17 | 18 => {
                let harmonic = wave::cutoff_harmonic(mode, a);
                let k = wave::damping(self.character);
                wave::filter(mode, harmonic, self.increment(), k, self.x, state)
            }
            _ => wave::distort_smooth(mode, a, self.x, state),
        }
    }

    /// The sample shaped by slot 0 of a run, slot 1 being Off.
    #[must_use]
    pub fn slot(&self, mode: u32, state: Pair) -> (f32, Pair) {
        let settings = Settings {
            modes: [mode, 0],
            characters: [self.character, 0.0],
            factor: 1,
            n: 1,
            active: 1,
            frames: 1,
            rate: 48000,
        };
        let lent = Lent {
            base: [&[self.percent], &[0.0]],
            mods: [&[]; 2],
            sources: [self.source.as_slice(), &[]],
            curve: &[0.0; 1025],
        };
        let mut pairs = [state.ic1, state.ic2, 0.0, 0.0];
        let cells = State {
            pairs: &mut pairs,
            fm: &mut [0.0; 2],
            last: &mut [0.0],
        };
        let y = Card::new(&settings, &lent).shape_at_lane(0, 0, 0, self.step, self.x, cells);
        let [ic1, ic2, ..] = pairs;
        (y, Pair { ic1, ic2 })
    }
}

/// The hash of a sequence of `count` samples drawn from `seed`, wild ones if
/// the seed is odd: each shaped sample and the state after it. `in_slot`
/// says whether they go through a slot or through the filter or the
/// distortion alone.
#[must_use]
pub fn run(in_slot: bool, mode: u32, seed: u32, count: u32) -> u64 {
    let mut generator = Generator(seed);
    let mut hash = Hash::default();
    let mut case = Case::start();
    let mut state = Pair { ic1: 0.0, ic2: 0.0 };
    for _ in 0..count {
        case = case.next(&mut generator, seed & 1 == 1);
        let from = case.fresh.unwrap_or(state);
        let (y, after) = if in_slot {
            case.slot(mode, from)
        } else {
            case.alone(mode, from)
        };
        state = after;
        for x in [y, state.ic1, state.ic2] {
            hash.fold(pattern(x));
        }
    }
    hash.0
}
