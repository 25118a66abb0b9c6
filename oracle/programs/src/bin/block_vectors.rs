//! Prints the block run's vectors in the format of `leaf_vectors`, as runs of
//! code e0: A is the seed, B mode 1 × 2^24 + mode 0 × 2^16 + the count of
//! calls, C and E the high and low half of the hash.
//!
//! A run draws designs, the numbers of a block and its buffers, prepares the
//! block's spans, and then renders its ranges one after another. After each
//! call the hash takes its number and frames and all cells of the buffers
//! that it changes: inner, stretch and add; then each time output, work,
//! pairs, fm, last and state. oracle/README.md has what is made of each word.

use programs::blocks::{BLOCK, run};
use programs::pairs;

/// The calls of a run.
const CALLS: u32 = 8;

/// Pairs beside those of all modes: nothing to do, the sample kept for
/// `PdSelf`, two FM carries, two filters, two distortions.
const MORE: [[u32; 2]; 12] = [
    [0, 0],
    [0, 0],
    [57, 21],
    [17, 57],
    [57, 58],
    [64, 57],
    [33, 40],
    [47, 33],
    [17, 18],
    [18, 17],
    [19, 31],
    [24, 16],
];

fn main() {
    pairs::print(BLOCK + 0x80, 0x500, CALLS, &MORE, run);
}
