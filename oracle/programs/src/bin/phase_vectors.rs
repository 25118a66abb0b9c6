//! Prints the phase side's vectors in the format of `leaf_vectors`, its codes
//! going on from there.
//!
//! | code | A | B | C |
//! |---|---|---|---|
//! | 20 to 25 | a mode: source, fm_type, modulated, stage, oversampled, distortion | | |
//! | 26 | the curve's value at A, on lookup's table | | |
//! | 27 | the steepest slope of the table of seed A | | |
//! | 28 | stretch of mode A modulo 72 | amount | the curve's steepest |
//!
//! A mode above 69 is answered 101. A code from 80 on is a run of the one 80
//! below it, as in `leaf_vectors`. Code a9 is a run of read lists of two
//! slots: A is the seed, B mode 1 × 2^24 + mode 0 × 2^16 + the count.

use programs::phases::{self, APPLY, FIRST, PHASES};
use programs::{NAN, lookup_table};

/// For the curve's value: where segments meet, where x is kept, and the
/// special values.
const FLOATS: [u32; 32] = [
    0x0000_0000, // 0
    0x8000_0000,
    0x0000_0001, // the least subnormal
    0x8000_0001,
    0x337f_ffff, // around 2^-24
    0x3380_0000,
    0x3a7f_ffff, // around 1/1,024
    0x3a80_0000,
    0x3a80_0001,
    0xba80_0000,
    0x3a00_0000, // 1/2,048
    0x3dcc_cccd, // 0.1
    0x3e80_0000, // 1/4
    0x3eff_ffff, // around 1/2
    0x3f00_0000,
    0x3f00_0001,
    0x3f40_0000, // 3/4
    0x3f7f_bfff, // around 1,023/1,024
    0x3f7f_c000,
    0x3f7f_c001,
    0x3f7f_ffff, // around 1
    0x3f80_0000,
    0x3f80_0001,
    0xbf00_0000,
    0xbf80_0000,
    0x4000_0000, // 2
    0x4f80_0000, // 2^32
    0x7f7f_ffff, // the largest
    0xff7f_ffff,
    0x7f80_0000, // infinity
    0xff80_0000,
    NAN,
];

/// Amounts and steepest slopes for stretch.
const SLOPES: [[u32; 2]; 4] = [
    [0x3f80_0000, 0x4180_0000], // 1, 16
    [0x3e99_999a, 0x4020_0000], // 0.3, 2.5
    [0xff80_0000, 0x7f80_0000], // below 0
    [NAN, 0x3f80_0000],
];

/// The modes whose read lists run beside Off: the phase modes that map, and
/// of those that leave the list three of the phase side and three others.
const MODES: [u32; 22] = [
    1, 2, 3, 4, 5, 6, 7, 8, 9, 10, 11, 12, 13, 14, 15, 16, 33, 45, 57, 17, 30, 64,
];

/// More pairs of phase modes, slot 0's first: those that push two reads.
const PAIRS: [[u32; 2]; 8] = [
    [1, 5],
    [5, 15],
    [10, 1],
    [10, 15],
    [15, 10],
    [15, 16],
    [16, 1],
    [16, 5],
];

fn print(code: usize, words: [u32; 4]) {
    let [a, b, c, e] = words;
    println!("{code:02x} {a:08x} {b:08x} {c:08x} {e:08x}");
}

/// The inputs of an operation's boundary cases.
fn boundary(code: usize) -> Vec<[u32; 3]> {
    match code {
        0x20..=0x25 => (0..=70).chain([u32::MAX]).map(|m| [m, 0, 0]).collect(),
        0x26 => FLOATS.map(|x| [x, 0, 0]).to_vec(),
        0x27 => (0x5eed_0000..0x5eed_0010).map(|s| [s, 0, 0]).collect(),
        _ => (0..=16)
            .chain([57, 69, 70])
            .flat_map(|mode| SLOPES.map(|[amount, steepest]| [mode, amount, steepest]))
            .collect(),
    }
}

/// How many cases a run has: each of 27 makes a table.
fn count(code: usize) -> u32 {
    if code == 0x27 { 0x40 } else { 0x1000 }
}

fn main() {
    let table = lookup_table();
    for (code, leaf) in PHASES.iter().enumerate().map(|(i, leaf)| (FIRST + i, leaf)) {
        for case in boundary(code) {
            let [a, b, c] = case;
            print(code, [a, b, c, (leaf.answer)(case, &table)]);
        }
        if code < 0x26 {
            continue;
        }
        let spread = (code as u32 + 1).wrapping_mul(0x9e37_79b1);
        for seed in [spread | 1, spread.rotate_left(16) & !1] {
            let count = count(code);
            let hash = leaf.run(seed, count, &table);
            print(code + 0x80, [seed, count, (hash >> 32) as u32, hash as u32]);
        }
    }

    let beside_off = MODES.iter().flat_map(|&m| [[m, 0], [0, m]]);
    let same = (1..=16).map(|m| [m, m]);
    let across = (1..=16).map(|m| [m, 17 - m]);
    let pairs = beside_off.chain(same).chain(across).chain(PAIRS);
    for (i, modes) in pairs.enumerate() {
        let spread = (i as u32 + 0x100).wrapping_mul(0x9e37_79b1);
        for seed in [spread | 1, spread.rotate_left(16) & !1] {
            let count = 0x200;
            let hash = phases::run(modes, seed, count, &table);
            let what = modes[1] << 24 | modes[0] << 16 | count;
            print(APPLY + 0x80, [seed, what, (hash >> 32) as u32, hash as u32]);
        }
    }
}
