//! What the vector programs share: the generator, the hash, the leaves
//! by operation code, and the cases of the phase side, the wave side, the
//! decimator, the single calls, the block run, the pictures, the patch files
//! and the searches for an amount.

pub mod blocks;
pub mod decimations;
pub mod files;
pub mod levels;
pub mod pairs;
pub mod phases;
pub mod pictures;
pub mod singles;
pub mod waves;

use ruled::api::lanes;

/// The one pattern that stands for every NaN.
pub const NAN: u32 = 0x7fc0_0000;

/// Xorshift on 32 bits. The seed is never 0.
#[derive(Clone, Debug)]
pub struct Generator(pub u32);

impl Generator {
    pub fn draw(&mut self) -> u32 {
        self.0 ^= self.0 << 13;
        self.0 ^= self.0 >> 17;
        self.0 ^= self.0 << 5;
        self.0
    }
}

/// 64-bit FNV-1a, a word at a time.
#[derive(Clone, Debug)]
pub struct Hash(pub u64);

impl Default for Hash {
    fn default() -> Self {
        Self(0xcbf2_9ce4_8422_2325)
    }
}

impl Hash {
    pub fn fold(&mut self, word: u32) {
        self.0 = (self.0 ^ u64::from(word)).wrapping_mul(0x100_0000_01b3);
    }
}

/// A float's pattern, every NaN's the same.
#[must_use]
pub fn pattern(x: f32) -> u32 {
    if x.is_nan() { NAN } else { x.to_bits() }
}

/// A raw pattern with its exponent kept near 1: 2^-15 to 2, either sign.
#[must_use]
pub fn tame(bits: u32) -> u32 {
    bits & 0x87ff_ffff | 0x3800_0000
}

/// The lookup leaf's table: 1,025 numbers from 0 to 1.
#[must_use]
pub fn lookup_table() -> Vec<f32> {
    let mut generator = Generator(0x5eed);
    (0..1025)
        .map(|_| (generator.draw() >> 8) as f32 / 16_777_216.0)
        .collect()
}

/// What a leaf takes, in order.
#[derive(Clone, Copy, Debug, PartialEq, Eq)]
pub enum Input {
    Float,
    Word,
}

/// A leaf on patterns. A float answer's NaN is always [`NAN`]; words are
/// left as they are.
pub struct Leaf {
    pub name: &'static str,
    pub inputs: &'static [Input],
    pub answer: fn([u32; 3], &[f32]) -> u32,
}

const F: Input = Input::Float;
const W: Input = Input::Word;

fn f(bits: u32) -> f32 {
    f32::from_bits(bits)
}

/// A leaf of floats, answering a float.
macro_rules! floats {
    ($name:ident x) => {
        Leaf {
            name: stringify!($name),
            inputs: &[F],
            answer: |[x, _, _], _| pattern(lanes::$name(f(x))),
        }
    };
    ($name:ident a b) => {
        Leaf {
            name: stringify!($name),
            inputs: &[F, F],
            answer: |[a, b, _], _| pattern(lanes::$name(f(a), f(b))),
        }
    };
    ($name:ident a b c) => {
        Leaf {
            name: stringify!($name),
            inputs: &[F, F, F],
            answer: |[a, b, c], _| pattern(lanes::$name(f(a), f(b), f(c))),
        }
    };
}

/// The leaves, by operation code.
pub const LEAVES: [Leaf; 0x20] = [
    floats!(min a b),
    floats!(max a b),
    floats!(mul_add a b c),
    floats!(abs x),
    floats!(sqrt x),
    floats!(floor x),
    floats!(sign_bit x),
    floats!(exp2 x),
    Leaf {
        name: "any",
        inputs: &[F],
        answer: |[x, _, _], _| u32::from(lanes::any(f(x))),
    },
    Leaf {
        name: "split exponent",
        inputs: &[F],
        answer: |[x, _, _], _| pattern(lanes::split(f(x)).0),
    },
    Leaf {
        name: "split mantissa",
        inputs: &[F],
        answer: |[x, _, _], _| pattern(lanes::split(f(x)).1),
    },
    Leaf {
        name: "add_words",
        inputs: &[W, W],
        answer: |[a, b, _], _| lanes::add_words(a, b),
    },
    Leaf {
        name: "pick_word",
        inputs: &[F, W, W],
        answer: |[mask, a, b], _| lanes::pick_word(f(mask), a, b),
    },
    Leaf {
        name: "signed",
        inputs: &[W],
        answer: |[word, _, _], _| pattern(lanes::signed(word)),
    },
    Leaf {
        name: "to_word",
        inputs: &[F],
        answer: |[x, _, _], _| lanes::to_word(f(x)),
    },
    Leaf {
        name: "lookup",
        inputs: &[F],
        answer: |[x, _, _], table| pattern(lanes::lookup(table, 1024, f(x))),
    },
    floats!(pick a b c),
    floats!(above x),
    floats!(sign x),
    floats!(clamp a b c),
    floats!(smoothstep x),
    floats!(sin_cycles x),
    floats!(cos_cycles x),
    floats!(atan x),
    floats!(tanh x),
    floats!(exp x),
    floats!(ln x),
    floats!(ln_cosh x),
    floats!(tan x),
    Leaf {
        name: "cast_word",
        inputs: &[F],
        answer: |[x, _, _], _| lanes::cast_word(f(x)),
    },
    Leaf {
        name: "nearest_u32",
        inputs: &[W],
        answer: |[word, _, _], _| pattern(lanes::nearest_u32(word)),
    },
    Leaf {
        name: "nearest_i32",
        inputs: &[W],
        answer: |[word, _, _], _| pattern(lanes::nearest_i32(word)),
    },
];

impl Leaf {
    /// The hash of its answers to `count` cases drawn from `seed`: three
    /// draws each, tame floats if the seed is even.
    #[must_use]
    pub fn run(&self, seed: u32, count: u32, table: &[f32]) -> u64 {
        let mut generator = Generator(seed);
        let mut hash = Hash::default();
        for _ in 0..count {
            let mut drawn = [0; 3].map(|_: u32| generator.draw());
            if seed.is_multiple_of(2) {
                for (bits, _) in drawn.iter_mut().zip(self.inputs).filter(|p| *p.1 == F) {
                    *bits = tame(*bits);
                }
            }
            hash.fold((self.answer)(drawn, table));
        }
        hash.0
    }
}
