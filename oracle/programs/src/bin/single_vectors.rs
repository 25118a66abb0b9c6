//! Prints the vectors of the calls about one lane and about a block's spans,
//! in the format of `leaf_vectors`, as runs of calls.
//!
//! | code | call | buffers, in the order in which they are drawn |
//! |---|---|---|
//! | d0 | `reads_lane` | base0, base1, mod0, mod1, source0, source1, inner, fm, last |
//! | d1 | `shape_at_lane` | base0, base1, mod0, mod1, source0, source1, pairs, last |
//! | d2 | `prepare` | base0, base1, mod0, mod1, source0, source1, inner, stretch, add |
//! | d3 | `PhaseRun::stretch` | stretch, add |
//!
//! A is the seed, B mode 1 × 2^24 + mode 0 × 2^16 + the count of calls (d3
//! has modes 0), C and E the high and low half of the hash.
//!
//! A run draws its buffers, whole, a word for each cell, and then nine words
//! for each call: sizes, range, how, rate, place, step, character0,
//! character1, x. The calls follow one another on the same buffers, and some
//! are turned down. After each the hash takes its number and frames, the
//! list or the value, and all cells of fm, of pairs and last, or of inner,
//! stretch and add. oracle/README.md has what is made of each word.

use programs::singles::{FIRST, Kind, run};

/// Slots whose modes are of one stage, slot 1's going through all of them
/// too.
fn of_stage(stage: u32, step: usize) -> Vec<[u32; 2]> {
    let of: Vec<u32> = (0..70)
        .filter(|&mode| ruled::api::stage(mode) == stage)
        .collect();
    let other = |i: usize| of[(step * i + step) % of.len()];
    (0..of.len()).map(|i| [of[i], other(i)]).collect()
}

/// Pairs in which the sample is kept for `PdSelf`.
const OWN: [[u32; 2]; 4] = [[57, 21], [17, 57], [57, 58], [64, 57]];

/// The modes of each run, slot 0's first: all 70 in each slot, and again
/// those of the call's stage.
fn modes(kind: Kind) -> Vec<[u32; 2]> {
    let every = (0..70).map(|mode| [mode, (29 * mode + 5) % 70]);
    match kind {
        Kind::Reads => every.chain(of_stage(1, 17)).collect(),
        Kind::Sample => every.chain(of_stage(2, 11)).chain(OWN).collect(),
        Kind::Stretch => vec![[0; 2]; 24],
        _ => every.collect(),
    }
}

fn main() {
    let mut line = 0x300u32;
    for (i, kind) in Kind::SINGLES.into_iter().enumerate() {
        for (place, [mode0, mode1]) in modes(kind).into_iter().enumerate() {
            // Odd in turn, a mode's second run unlike its first.
            let odd = match kind {
                Kind::Stretch => place as u32,
                _ if place < 70 => mode0,
                _ => mode0 + 1,
            };
            let seed = line.wrapping_mul(0x9e37_79b1) & !1 | odd & 1;
            let count = match kind {
                Kind::Reads | Kind::Sample => 24,
                Kind::Stretch => 64,
                _ => 8,
            };
            let hash = run(kind, [mode0, mode1], seed, count);
            println!(
                "{:02x} {seed:08x} {:08x} {:08x} {:08x}",
                FIRST + i + 0x80,
                mode1 << 24 | mode0 << 16 | count,
                (hash >> 32) as u32,
                hash as u32
            );
            line += 1;
        }
    }
}
