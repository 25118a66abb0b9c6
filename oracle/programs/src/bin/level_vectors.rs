//! Prints the vectors of searches for an amount in the format of
//! `leaf_vectors`, as runs of code e3: A is the seed, B the mode × 2^16 + the
//! count of searches, C and E the high and low half of the hash. The answers
//! are the model's (`programs::levels`), over the oracle's curves.
//!
//! A search draws five words: how, sample, wanted, tolerance, amount. The
//! wanted output is often that of an amount, or just as far from it as the
//! tolerance, and some modes are turned down. After each search the hash takes
//! its number and hundredths. oracle/README.md has what is made of each word.

use std::collections::BTreeSet;

use programs::levels::{LEVEL, run};

/// The searches of a distortion's run, of which each has two.
const SEARCHES: u32 = 12;

/// Rectify, and the searches of two more runs of it: of a sample below 0 its
/// output is another at each amount, and shows more of the amount's bits than
/// the drive of the others does.
const RECTIFY: u32 = 28;
const MANY: u32 = 200;

/// The searches of another mode's run.
const FEW: u32 = 4;

/// Modes that are no distortions: the first and the last, and those on either
/// side of the distortions.
const OTHERS: [u32; 4] = [0, 18, 33, 69];

/// Answers that some search has: the least and the most, and what turns down.
const ANSWERS: [[u32; 2]; 4] = [[0, 0], [0, 10_000], [1, 0], [12, 0]];

fn main() {
    let mut seen = BTreeSet::new();
    let distortions = (19..=32).flat_map(|mode| [(mode, SEARCHES); 2]);
    let runs = distortions
        .chain([(RECTIFY, MANY); 2])
        .chain(OTHERS.map(|mode| (mode, FEW)));
    for (line, (mode, count)) in (0x800u32..).zip(runs) {
        // Even and odd in turn, as the lines are.
        let seed = line.wrapping_mul(0x9e37_79b1);
        let hash = run(mode, seed, count, &mut seen);
        println!(
            "{:02x} {seed:08x} {:08x} {:08x} {:08x}",
            LEVEL + 0x80,
            mode << 16 | count,
            (hash >> 32) as u32,
            hash as u32
        );
    }
    assert!(ANSWERS.iter().all(|answer| seen.contains(answer)));
}
