//! Ranges by a call for each lane, against one block run of the library and against the Rust's.

use super::blocks::{Run, Way, mode};
use super::markdown::{hundredths, table};
use programs::singles::Kind;

/// Slot 0's mode and slot 1's: a pair that has next to nothing to do, beside which it shows most that every call makes
/// the table of powers anew, and some that have.
const PAIRS: [[&str; 2]; 4] = [["Off", "Off"], ["PinchIn", "Lean"], ["LowPass", "HighPass"], ["Fm1", "FmExp2"]];

/// Blocks of so many host frames are cut into ranges of so many.
const FRAMES: u32 = 64;
const RANGES: [u32; 2] = [64, 1];

const LANES: [u32; 3] = [1, 8, 64];
const FACTORS: [u32; 2] = [1, 8];

/// The ratios of a range by its lanes, to the library's block run and to the Rust's.
fn ratios(run: Run) -> [f64; 2] {
    let [lanes, whole] = run.by([Kind::LaneRun, Kind::Run]);
    [lanes.here / whole.here, lanes.ratio()]
}

fn line(names: [&str; 2], factor: u32, lanes: u32) -> Vec<String> {
    let ways = RANGES.map(|range| Way { lanes, frames: FRAMES, range });
    let run = |way| Run { modes: names.map(mode), factor, is_modulated: false, way };
    let numbers = ways.into_iter().flat_map(|way| ratios(run(way))).map(hundredths);
    [names.join(", "), factor.to_string(), lanes.to_string()].into_iter().chain(numbers).collect()
}

pub fn print() {
    let both = || FACTORS.into_iter().flat_map(|factor| LANES.map(|lanes| (factor, lanes)));
    table(
        "Ranges of 64 host frames and of 1 by a call for each lane, the ratio to one block run here and in the Rust:",
        &["modes (slot 0, slot 1)", "factor", "lanes", "64: here", "64: Rust", "1: here", "1: Rust"],
        PAIRS.into_iter().flat_map(|names| both().map(move |(factor, lanes)| line(names, factor, lanes))),
    );
}
