//! Prints the vectors of pictures in the format of `leaf_vectors`, as runs of
//! code e1: A is the seed, B mode 1 × 2^24 + mode 0 × 2^16 + the count of
//! pictures, C and E the high and low half of the hash.
//!
//! A run draws a cycle and the cells that its pictures are drawn into, and
//! then six words for each picture: how, points, amount0, amount1,
//! character0, character1. The pictures follow one another on the same
//! cells, and some are turned down. After each the hash takes its number and
//! frames and all cells. oracle/README.md has what is made of each word.

use programs::pairs;
use programs::pictures::{PICTURE, run};

/// The pictures of a run.
const PICTURES: u32 = 8;

/// Pairs beside those of all modes: nothing to do, two slots that read twice,
/// slot 0's edges stretched by slot 1's curve, two filters, two distortions,
/// a source beside each.
const MORE: [[u32; 2]; 12] = [
    [0, 0],
    [16, 16],
    [5, 11],
    [15, 11],
    [10, 1],
    [17, 17],
    [17, 18],
    [18, 17],
    [21, 25],
    [25, 21],
    [58, 17],
    [24, 33],
];

fn main() {
    pairs::print(PICTURE + 0x80, 0x600, PICTURES, &MORE, run);
}
