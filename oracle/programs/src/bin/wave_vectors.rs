//! Prints the wave side's vectors in the format of `leaf_vectors`, its codes
//! going on from `phase_vectors`.
//!
//! | code | A | B | C |
//! |---|---|---|---|
//! | 30 | the curve of mode A | at B | |
//! | 31 | its integral | at B | |
//! | 32 | the drive of mode A | at amount B | |
//! | 33 | distort by mode A | at amount B | of C |
//! | 34 | the cutoff harmonic of mode A | at amount B | |
//! | 35 | the damping at character A | | |
//!
//! A mode is taken modulo 70. A code from 80 on is a run of the one 80 below
//! it, as in `leaf_vectors`. Code b6 is a run of a sequence of samples: A is
//! the seed, B the mode × 2^16 + the count, and 2^24 more where the samples
//! go through a slot.

use programs::NAN;
use programs::waves::{self, FIRST, SHAPE, WAVES};

/// For each curve and integral: -0, a knee or past it, and a special value
/// of a part of them.
const FLOATS: [u32; 12] = [
    0x8000_0000, // -0
    0x0000_0001, // the least subnormal
    0x3f80_0000, // 1
    0xbf80_0001,
    0x3fc0_0000, // 3/2
    0xbfc9_0fdb, // -π/2
    0x4020_0000, // 5/2
    0xc2b0_0000, // -88
    0x7f7f_ffff, // the largest
    0x7f80_0000, // infinity
    0xff80_0000,
    NAN,
];

/// Amounts, also below 0 and above 1.
const AMOUNTS: [u32; 6] = [
    0x0000_0000,
    0x3e99_999a, // 0.3
    0x3f80_0000, // 1
    0xc000_0000, // -2
    0x7f80_0000,
    NAN,
];

fn print(code: usize, words: [u32; 4]) {
    let [a, b, c, e] = words;
    println!("{code:02x} {a:08x} {b:08x} {c:08x} {e:08x}");
}

/// The inputs of an operation's boundary cases.
fn boundary(code: usize) -> Vec<[u32; 3]> {
    let amounts = |modes: &[u32]| {
        let of = |&m: &u32| AMOUNTS.map(|a| [m, a, 0]);
        modes.iter().flat_map(of).collect()
    };
    match code {
        // each mode at a third of the floats
        0x30 | 0x31 => (18..=32)
            .flat_map(|m| (0..4).map(move |i| [m, FLOATS[(3 * i + m as usize) % 12], 0]))
            .collect(),
        0x32 => amounts(&[19, 25, 28]),
        0x33 => (18..=32)
            .map(|m| [m, AMOUNTS[m as usize % 3], FLOATS[m as usize * 5 % 12]])
            .collect(),
        0x34 => amounts(&[17, 18]),
        _ => AMOUNTS.map(|a| [a, 0, 0]).to_vec(),
    }
}

fn main() {
    for (code, leaf) in WAVES.iter().enumerate().map(|(i, leaf)| (FIRST + i, leaf)) {
        for case in boundary(code) {
            let [a, b, c] = case;
            print(code, [a, b, c, (leaf.answer)(case, &[])]);
        }
        let spread = (code as u32 + 1).wrapping_mul(0x9e37_79b1);
        for seed in [spread | 1, spread.rotate_left(16) & !1] {
            let count = 0x1000;
            let hash = leaf.run(seed, count, &[]);
            print(code + 0x80, [seed, count, (hash >> 32) as u32, hash as u32]);
        }
    }

    let alone = (17..=32).map(|m| (false, m));
    let in_slot = (17..=32).chain([5, 58, 64]).map(|m| (true, m));
    for (i, (in_slot, mode)) in alone.chain(in_slot).enumerate() {
        let spread = (i as u32 + 0x200).wrapping_mul(0x9e37_79b1);
        for seed in [spread | 1, spread.rotate_left(16) & !1] {
            let count = 0x200;
            let hash = waves::run(in_slot, mode, seed, count);
            let what = u32::from(in_slot) << 24 | mode << 16 | count;
            print(SHAPE + 0x80, [seed, what, (hash >> 32) as u32, hash as u32]);
        }
    }
}
