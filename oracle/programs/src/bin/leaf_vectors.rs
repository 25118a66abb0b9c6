//! Prints the leaves' vectors, a line each, `OO AAAAAAAA BBBBBBBB CCCCCCCC
//! EEEEEEEE`: operation code, inputs as patterns (0 where unused), expected
//! answer. A code from 80 on is a run of the leaf 80 below it: seed, count,
//! and the high and low half of the hash of its answers.

use programs::Input::{Float, Word};
use programs::{LEAVES, Leaf, NAN, lookup_table};

/// For leaves of one float.
const FLOATS: [u32; 82] = [
    0x0000_0000, // 0
    0x8000_0000,
    0x0000_0001, // the least subnormal
    0x8000_0001,
    0x007f_ffff, // the largest subnormal
    0x807f_ffff,
    0x0080_0000, // the least normal
    0x8080_0000,
    0x2edb_e6ff, // 1e-10
    0xaedb_e6ff,
    0x3380_0000, // 2^-24
    0x3780_0000, // 2^-16
    0xb780_0000,
    0x3dcc_cccd, // 0.1
    0xbdcc_cccd,
    0x3e80_0000, // 1/4
    0xbe80_0000,
    0x3e99_999a, // 0.3
    0x3eff_ffff, // around 1/2
    0x3f00_0000,
    0x3f00_0001,
    0xbeff_ffff,
    0xbf00_0000,
    0xbf00_0001,
    0x3f40_0000, // 3/4
    0xbf40_0000,
    0x3f7f_ffff, // around 1
    0x3f80_0000,
    0x3f80_0001,
    0xbf7f_ffff,
    0xbf80_0000,
    0xbf80_0001,
    0x3fb5_04f3, // the square root of 2
    0x3fc0_0000, // 1.5
    0xbfc0_0000,
    0x4000_0000, // 2
    0x4020_0000, // 2.5
    0xc020_0000,
    0x4110_0000, // 9 and above it
    0x4110_0001,
    0xc110_0000,
    0x42c8_0000, // 100
    0x42fc_0000, // around 126
    0x42fc_0001,
    0xc2fb_ffff,
    0xc2fc_0000,
    0xc2fc_0001,
    0x42fe_0000, // 127
    0xc2fe_0000,
    0x42ff_ffff, // around 128
    0x4300_0000,
    0x4300_0001,
    0xc300_0000,
    0x4a7f_ffff, // around 2^22
    0x4a80_0000,
    0x4a80_0001,
    0xca80_0001,
    0x4aff_ffff, // around 2^23
    0x4b00_0000,
    0x4b00_0001,
    0xcaff_ffff,
    0xcb00_0001,
    0x4b7f_ffff, // around 2^24
    0x4b80_0000,
    0x4b80_0001,
    0x4eff_ffff, // around 2^31
    0x4f00_0000,
    0xcf00_0000,
    0xcf00_0001,
    0x4f80_0000, // 2^32
    0xcf80_0000,
    0x7149_f2ca, // 1e30
    0x7eff_ffff, // around 2^127
    0x7f00_0000,
    0x7f7f_ffff, // the largest
    0xff7f_ffff,
    0x7f80_0000, // infinity
    0xff80_0000,
    NAN,
    0xffc0_0000,
    0x7f80_0001,
    0xffff_ffff,
];

/// For leaves of one word: where rounding to 24 digits ties, and the signs.
const WORDS: [u32; 34] = [
    0x0000_0000,
    0x0000_0001,
    0x0000_0002,
    0x0000_1234,
    0x007f_ffff,
    0x0080_0001,
    0x00ff_ffff,
    0x0100_0000,
    0x0100_0001,
    0x0100_0002,
    0x0100_0003,
    0x0200_0002,
    0x0200_0005,
    0x0200_0006,
    0x3fff_ffff,
    0x4000_0000,
    0x5555_5555,
    0x7fff_ff7f,
    0x7fff_ffbf,
    0x7fff_ffc0,
    0x7fff_ffc1,
    0x7fff_ffff,
    0x8000_0000,
    0x8000_0001,
    0x8000_0040,
    0x8000_0041,
    0x8000_00c0,
    0xc000_0000,
    0xfeff_ffff,
    0xff00_0001,
    0xffff_ff7f,
    0xffff_ff80,
    0xffff_ff81,
    0xffff_ffff,
];

/// For two floats, each with each.
const EACH: [u32; 11] = [
    0x0000_0000,
    0x8000_0000,
    0x0000_0001,
    0x3f00_0000,
    0x3f80_0000,
    0xbf80_0000,
    0xc000_0000,
    0x7f7f_ffff,
    0x7f80_0000,
    0xff80_0000,
    NAN,
];

/// For two words, each with each.
const EACH_WORD: [u32; 10] = [
    0x0000_0000,
    0x0000_0001,
    0x0000_0003,
    0x1234_5678,
    0x7fff_ffff,
    0x8000_0000,
    0x8000_0001,
    0xc000_0000,
    0xfedc_ba98,
    0xffff_ffff,
];

fn print(code: usize, words: [u32; 4]) {
    let [a, b, c, e] = words;
    println!("{code:02x} {a:08x} {b:08x} {c:08x} {e:08x}");
}

/// The inputs a leaf's boundary cases have.
fn boundary(name: &str, leaf: &Leaf) -> Vec<[u32; 3]> {
    let bits = f32::to_bits;
    let inf = f32::INFINITY;
    let nan = f32::NAN;
    let mut cases = Vec::new();
    match (name, leaf.inputs) {
        // One product rounded on its own, and the special values.
        ("mul_add", _) => {
            let one_up = f32::from_bits(0x3f80_0001);
            for a in [0.0, -0.0, one_up, 0.1, f32::MAX, inf, nan] {
                for mul in [0.0, one_up, -0.1, 3.0] {
                    for add in [-1.0, -0.0, 0.3, -inf] {
                        cases.push([bits(a), bits(mul), bits(add)]);
                    }
                }
            }
        }
        // Arithmetic, never a choice: it shows where the two differ in size.
        ("pick", _) => {
            let pairs = [
                (0.0, 0.0),
                (-0.0, -0.0),
                (-0.0, 1.0),
                (1.0, 1e-9),
                (1e-9, 1.0),
                (1.0, 2.0),
                (-1.0, 1.0),
                (0.1, 0.3),
                (0.3, 0.1),
                (0.5, inf),
                (inf, 0.5),
                (inf, inf),
                (f32::MAX, -f32::MAX),
                (1e-45, 1e38),
                (16_777_216.0, 1.0),
                (nan, 1.0),
                (1.0, nan),
            ];
            for mask in [0.0, 1.0, -0.0, 0.5, 2.0, nan] {
                for (a, b) in pairs {
                    cases.push([bits(mask), bits(a), bits(b)]);
                }
            }
        }
        ("pick_word", _) => {
            let masks = [
                0.0,
                1.0,
                -0.0,
                0.5,
                0.999_999_94,
                2.0,
                -1.0,
                1e10,
                -inf,
                nan,
            ];
            for mask in masks {
                for pair in EACH_WORD.windows(2) {
                    cases.push([bits(mask), pair[0], pair[1]]);
                }
                cases.push([bits(mask), 0xffff_ffff, 0]);
            }
        }
        // Bounds that stand in the source, then crossed and NaN ones.
        ("clamp", _) => {
            let bounds = [
                (0.0, 1.0),
                (-1.0, 1.0),
                (-1.5, 1.5),
                (-9.0, 9.0),
                (0.0, 100.0),
                (1.0, 16.0),
                (1.0, f32::MAX),
                (-0.0, 0.0),
                (1.0, 0.0),
                (nan, 1.0),
                (0.0, nan),
            ];
            for x in [0.0, -0.0, 0.5, 1.0, -1.0, 9.5, 120.0, 1e-45, inf, -inf, nan] {
                for (lo, hi) in bounds {
                    cases.push([bits(x), bits(lo), bits(hi)]);
                }
            }
        }
        (_, [Float]) => cases.extend(FLOATS.map(|x| [x, 0, 0])),
        (_, [Word]) => cases.extend(WORDS.map(|w| [w, 0, 0])),
        (_, [Float, Float]) => {
            cases.extend(EACH.iter().flat_map(|&a| EACH.map(|b| [a, b, 0])));
        }
        (_, [Word, Word]) => {
            cases.extend(EACH_WORD.iter().flat_map(|&a| EACH_WORD.map(|b| [a, b, 0])));
        }
        (name, _) => unreachable!("{name}"),
    }
    cases
}

fn main() {
    let table = lookup_table();
    for (code, leaf) in LEAVES.iter().enumerate() {
        for case in boundary(leaf.name, leaf) {
            let [a, b, c] = case;
            print(code, [a, b, c, (leaf.answer)(case, &table)]);
        }
        let spread = (code as u32 + 1).wrapping_mul(0x9e37_79b1);
        for seed in [spread | 1, spread.rotate_left(16) & !1] {
            let count = 0x1000;
            let hash = leaf.run(seed, count, &table);
            print(code + 0x80, [seed, count, (hash >> 32) as u32, hash as u32]);
        }
    }
}
