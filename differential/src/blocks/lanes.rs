//! A lane's run against the oracle's block run: every lane of a block in turn, and one lane by itself.

use super::drawn::{Block, Tables};
use crate::guards::differs;
use crate::lending::{Lending, pair};
use crate::tally::Tally;
use programs::Generator;
use programs::singles::{Call, Kind};
use std::iter::repeat_n;

fn shuffle(lanes: &mut [u32], g: &mut Generator) {
    for i in (1..lanes.len()).rev() {
        lanes.swap(i, (g.draw() >> 8) as usize % (i + 1));
    }
}

/// The calls of all lanes that make these runs, each lane's in the runs' order: one lane after the other, or
/// by turns. Of a lane that isn't active there are calls too, which are turned down.
pub fn by_lanes(runs: &[Call], g: &mut Generator) -> Vec<Call> {
    let lanes = runs[0].lanes;
    let mut order: Vec<u32> = (0..lanes).collect();
    shuffle(&mut order, g);
    let mut turns: Vec<u32> = order.into_iter().flat_map(|lane| repeat_n(lane, runs.len())).collect();
    if g.draw() >> 31 == 0 {
        shuffle(&mut turns, g);
    }
    let mut left: Vec<_> = (0..lanes).map(|_| runs.iter()).collect();
    let next = |lane: u32| left[lane as usize].next().map(|run| Call { lane, ..*run });
    turns.into_iter().filter_map(next).collect()
}

/// Runs of the oracle, and the same by lanes. All cells go on as the library leaves them.
fn one_by_one(lending: &mut Lending, runs: &[Call], g: &mut Generator, tally: &mut Tally) {
    let mut theirs = lending.cells.clone();
    for run in runs {
        lending.fit_work(run);
        let answer = theirs.lend(&lending.lengths).answer(Kind::Run, run);
        assert_eq!(answer, [0, run.count], "a drawn run is accepted");
    }
    for call in by_lanes(runs, g) {
        lending.fit_work(&call);
        lending.alone(&call, tally);
    }
    for &buffer in Kind::LaneRun.changed() {
        let [ours, theirs] = [&lending.cells, &theirs].map(|cells| &cells.floats[buffer as usize]);
        let wrong = differs(ours, theirs);
        tally.case(wrong.is_none(), || format!("{buffer:?} of the lanes of {runs:x?}: cell {wrong:?}"));
    }
}

/// As many blocks, each on the same buffers range by range or with all ranges of a lane in its turns; after
/// each of these the last range once more for one lane alone. One block of 64 has the most lanes, all active.
pub fn compare(count: u64, tally: &mut Tally) {
    let mut g = tally.generator(0x846c_a68b);
    let tables = Tables::new(&mut g);
    for i in 0..count {
        let mut block = Block::draw(pair(i), &tables, &mut g);
        if g.draw() >> 26 == 0 {
            block.call = Call { lanes: 64, active: 64, ..block.call };
        }
        let mut lending = Lending { kind: Kind::LaneRun, ..block.lend(&mut g) };
        let runs = block.runs(&mut g);
        let at_a_time = if g.draw() >> 31 == 0 { 1 } else { runs.len() };
        for runs in runs.chunks(at_a_time) {
            one_by_one(&mut lending, runs, &mut g, tally);
            let again = runs[runs.len() - 1];
            lending.fit_work(&again);
            lending.compare(&Call { lane: (g.draw() >> 8) % again.lanes, ..again }, tally);
        }
    }
}
