//! Prints the decimator's vectors in the format of `leaf_vectors`, as runs of
//! code c0: A is the seed, B factor × 2^24 + lanes × 2^16 + active lanes ×
//! 2^8 + frames, C and E the high and low half of the hash of what the call
//! leaves.

use programs::decimations::{DECIMATE, Shape, run};

/// Lanes, active lanes and frames, each with every factor.
const SIZES: [[u32; 3]; 16] = [
    [1, 1, 1],
    [1, 1, 2],
    [1, 1, 24],
    [2, 2, 7],
    [2, 1, 13],
    [3, 3, 24],
    [3, 2, 1],
    [4, 4, 16],
    [5, 3, 11],
    [6, 6, 3],
    [7, 7, 24],
    [7, 1, 19],
    [8, 8, 24],
    [8, 5, 24],
    [8, 0, 24],
    [8, 8, 0],
];

fn main() {
    for (i, [lanes, active, frames]) in SIZES.into_iter().enumerate() {
        for (j, factor) in [1, 2, 4, 8].into_iter().enumerate() {
            // The last three bits go through all kinds of call for every
            // factor.
            let line = (4 * i + j + 0x100) as u32;
            let seed = line.wrapping_mul(0x9e37_79b1) & !7 | (i + 3 * j) as u32 & 7;
            let shape = Shape {
                factor,
                lanes,
                active,
                frames,
            };
            let hash = run(seed, shape);
            let (high, low) = ((hash >> 32) as u32, hash as u32);
            println!(
                "{:02x} {seed:08x} {:08x} {high:08x} {low:08x}",
                DECIMATE + 0x80,
                shape.packed()
            );
        }
    }
}
