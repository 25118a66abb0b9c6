//! Prints the vectors of patch files in the format of `leaf_vectors`, as runs
//! of code e2: A is the seed, B the count of turns, C and E the high and low
//! half of the hash. The answers are the model's (`programs::files`).
//!
//! A turn makes a file of drawn records with up to two faults, reads it,
//! writes its patch and compares both files; the hash takes every answer and
//! the bytes that were written to. oracle/README.md has what is made of each
//! word.

use programs::files::{FILE, Seen, run};

/// The runs, and the turns of each.
const RUNS: u32 = 48;
const TURNS: u32 = 32;

/// Every number, in the calls that answer it.
const ANSWERS: [(&str, [u32; 2]); 12] = [
    ("read", [0, 0]),
    ("read", [9, 0]),
    ("read", [10, 0]),
    ("read", [11, 0]),
    ("written", [0, 28]),
    ("written", [8, 0]),
    ("written", [11, 0]),
    ("compared", [0, 0]),
    ("compared", [0, 1]),
    ("compared", [9, 0]),
    ("compared", [10, 0]),
    ("compared", [11, 0]),
];

fn main() {
    let mut seen = Seen::new();
    for line in 0x700..0x700 + RUNS {
        let seed = line.wrapping_mul(0x9e37_79b1);
        let hash = run(seed, TURNS, &mut seen);
        println!(
            "{:02x} {seed:08x} {TURNS:08x} {:08x} {:08x}",
            FILE + 0x80,
            (hash >> 32) as u32,
            hash as u32
        );
    }
    assert_eq!(seen, Seen::from(ANSWERS));
}
