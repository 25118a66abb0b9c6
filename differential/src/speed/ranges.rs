//! Block runs of the pairs of modes by lanes and by the host frames of a call.

use super::blocks::{Run, Way, mode};
use super::markdown::table;
use super::pairs::{PAIRS, ratios};
use super::summary::{self, Row, measured};

/// Blocks of so many host frames are cut into calls of so many.
const FRAMES: u32 = 128;
const RANGES: [u32; 6] = [1, 2, 4, 8, 32, 128];

const LANES: [u32; 3] = [1, 8, 64];
const FACTORS: [u32; 2] = [1, 8];

/// The largest block, in calls of a sub-block and in one call.
const LARGEST: [Way; 2] = [Way { lanes: 64, frames: 4096, range: 32 }, Way { lanes: 64, frames: 4096, range: 4096 }];

/// The pairs whose rows stand by themselves: one that has next to nothing to do, and those with the worst ratios.
const SHOWN: [[&str; 2]; 4] = [["Off", "Off"], ["PinchIn", "Lean"], ["HardClip", "Tape"], ["Am1", "Rm2"]];

/// Lanes and frames, as a table has them.
fn numbers(way: &Way) -> Vec<String> {
    [way.lanes, way.frames, way.range].map(|number| number.to_string()).to_vec()
}

/// A pair's ratios without modulation: a line for each count of lanes and factor, a column for each range.
fn lines(all: &[Row], names: [&'static str; 2]) -> impl Iterator<Item = Vec<String>> {
    let modes = names.map(mode);
    let both = LANES.into_iter().flat_map(|lanes| FACTORS.map(|factor| (lanes, factor)));
    both.map(move |(lanes, factor)| {
        let is_in = |run: &Run| {
            let is_its = (run.modes, run.factor, run.way.lanes) == (modes, factor, lanes);
            is_its && run.way.frames == FRAMES && !run.is_modulated
        };
        let rows: Vec<Row> = all.iter().filter(|(run, _)| is_in(run)).copied().collect();
        ratios(vec![names.join(", "), factor.to_string(), lanes.to_string()], &rows)
    })
}

pub fn print(is_full: bool) {
    let cut = LANES.into_iter().flat_map(|lanes| RANGES.map(|range| Way { lanes, frames: FRAMES, range }));
    let runs = |way| PAIRS.into_iter().flat_map(move |names| Run::all(names.map(mode), &FACTORS, way));
    let group = |way: Way| (numbers(&way), measured(runs(way)));
    let groups: Vec<(Vec<String>, Vec<Row>)> = cut.chain(LARGEST).map(group).collect();
    let all: Vec<Row> = groups.iter().flat_map(|(_, rows)| rows).copied().collect();
    summary::groups(
        "Block runs of the same pairs by 1 and by 8, without modulation and with it, by lanes and ranges:",
        &["lanes", "block's host frames", "a call's"],
        groups.clone(),
    );
    table(
        "Some of them without modulation, blocks of 128 host frames in calls of 1 to 128, the ratio:",
        &["modes (slot 0, slot 1)", "factor", "lanes", "1", "2", "4", "8", "32", "128"],
        SHOWN.into_iter().flat_map(|names| lines(&all, names)),
    );
    if is_full {
        for (names, rows) in groups {
            summary::each(&format!("Lanes, block and call {}, a rendered sample:", names.join(", ")), &rows);
        }
    }
}
