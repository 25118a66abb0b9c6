//! Block runs of pairs of modes.

use super::blocks::{Run, Way, mode};
use super::markdown::{hundredths, table};
use super::summary::{self, Row, measured};

/// Slot 0's mode and slot 1's.
pub const PAIRS: [[&str; 2]; 12] = [
    ["Off", "Off"],
    ["Sync", "Off"],
    ["Sync", "Mirror"],
    ["PinchIn", "Lean"],
    ["Quantise", "RemapDrawn"],
    ["LowPass", "HighPass"],
    ["Valve", "Off"],
    ["HardClip", "Tape"],
    ["Fm1", "FmExp2"],
    ["PdSelf", "SoftSaturate"],
    ["Am1", "Rm2"],
    ["OddEven", "Off"],
];

/// A line of a table: its names and the ratios of its rows.
pub fn ratios(names: Vec<String>, rows: &[Row]) -> Vec<String> {
    names.into_iter().chain(rows.iter().map(|(_, times)| hundredths(times.ratio()))).collect()
}

pub fn print(is_full: bool) {
    let rows = PAIRS.map(|names| measured(Run::all(names.map(mode), &[1, 4, 8], Way::WHOLE)));
    let all = rows.concat();
    table(
        "Block runs of pairs of modes, 8 lanes, 128 host frames in one call, the ratio:",
        &["modes (slot 0, slot 1)", "by 1", "by 4", "by 8", "modulated, by 1", "by 4", "by 8"],
        PAIRS.iter().zip(&rows).map(|(names, rows)| ratios(vec![names.join(", ")], rows)),
    );
    summary::groups("Of these:", &["pairs"], [(vec![PAIRS.len().to_string()], all.clone())]);
    if is_full {
        summary::each("All of them, a rendered sample:", &all);
    }
}
