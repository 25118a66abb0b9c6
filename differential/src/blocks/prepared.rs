//! Blocks one after another as a card makes them: the spans by `prepare`, then ranges that follow one
//! another, in the library at times lane by lane. Each side goes on with its own spans and state.

use super::drawn::{Block, Tables, ranges};
use super::lanes::by_lanes;
use crate::cycle;
use crate::guards::differs;
use crate::lending::{pair, ported};
use crate::tally::Tally;
use programs::Generator;
use programs::blocks::{BUFFERS, rows};
use programs::singles::{Buffer, Buffers, Call, Kind, Lengths};

/// Blocks in a row.
const BLOCKS: u32 = 3;

/// What a block is lent anew.
const INPUTS: [Buffer; 6] =
    [Buffer::Base0, Buffer::Base1, Buffer::Mod0, Buffer::Mod1, Buffer::Source0, Buffer::Source1];

struct Sides {
    ours: Buffers,
    theirs: Buffers,
    lengths: Lengths,
}

impl Sides {
    fn new(block: &Block<'_>, g: &mut Generator) -> Self {
        let length = |buffer: Buffer| buffer.asked(&block.call) as usize;
        let ours = Buffers::new(&BUFFERS, length, |buffer, i| match block.fixed(buffer).get(i) {
            Some(&cell) => cell,
            None => block.floats.cell(buffer, g),
        });
        let is_given = |buffer: Buffer| buffer.optional().is_none_or(|i| block.draws.gives(i));
        let lengths = Buffer::ALL.map(|buffer| if is_given(buffer) { length(buffer) } else { 0 });
        Self { theirs: ours.clone(), ours, lengths }
    }

    /// The next block's inputs, the same for both.
    fn draw(&mut self, block: &Block<'_>, g: &mut Generator) {
        for buffer in INPUTS {
            let cells = &mut self.ours.floats[buffer as usize];
            cells.fill_with(|| block.floats.cell(buffer, g));
            self.theirs.floats[buffer as usize].clone_from(cells);
        }
        let cells = self.lengths[Buffer::Words as usize];
        self.ours.words = rows(g, cells, block.call.lanes as usize, block.floats.is_wild());
        cycle::to_entries(&mut self.ours.words[0], g);
        self.theirs.words.clone_from(&self.ours.words);
    }

    /// A call of the oracle, and of the library the same call or all that it is made of.
    fn call(&mut self, kind: Kind, call: &Call, ours: &[(Kind, Call)], tally: &mut Tally) {
        let want = self.theirs.lend(&self.lengths).answer(kind, call);
        for (kind, call) in ours {
            let got = ported(*kind, call, self.ours.lend(&self.lengths));
            let is_same = got.iter().copied().eq(want.iter().copied().map(u64::from));
            tally.case(is_same, || format!("{kind:?} of {call:x?}: {got:08x?}, the oracle {want:08x?}"));
        }
        let by = ours.first().map(|(kind, _)| kind);
        for &buffer in kind.changed() {
            let [ours, theirs] = [&self.ours, &self.theirs].map(|cells| &cells.floats[buffer as usize]);
            let wrong = differs(ours, theirs);
            tally.case(wrong.is_none(), || format!("{buffer:?} of {kind:?} by {by:?} of {call:x?}: cell {wrong:?}"));
        }
    }
}

/// A run, every other time by its active lanes.
fn made_of(run: Call, g: &mut Generator) -> Vec<(Kind, Call)> {
    if g.draw() >> 31 == 0 {
        return vec![(Kind::Run, run)];
    }
    let calls = by_lanes(&[run], g).into_iter().filter(|call| call.lane < call.active);
    calls.map(|call| (Kind::LaneRun, call)).collect()
}

/// One after another with the same numbers.
fn in_a_row(blocks: u32, block: &Block<'_>, g: &mut Generator, tally: &mut Tally) {
    let mut sides = Sides::new(block, g);
    for _ in 0..blocks {
        sides.draw(block, g);
        sides.call(Kind::Prepare, &block.call, &[(Kind::Prepare, block.call)], tally);
        for [first, count] in ranges(block.call.frames, g) {
            let run = Call { first, count, ..block.call };
            sides.call(Kind::Run, &run, &made_of(run, g), tally);
        }
    }
}

/// A third as many runs of blocks.
pub fn compare(count: u64, tally: &mut Tally) {
    let mut g = tally.generator(0x165e_c2b2);
    let tables = Tables::new(&mut g);
    for i in 0..count / 3 {
        let block = Block::draw(pair(i), &tables, &mut g);
        in_a_row(BLOCKS, &block, &mut g, tally);
    }
}

/// As many blocks of the most lanes and frames, of drawn modes.
pub fn largest(count: u64, tally: &mut Tally) {
    let mut g = tally.generator(0x2127_599b);
    let tables = Tables::new(&mut g);
    for _ in 0..count {
        let modes = pair(u64::from(g.draw()));
        let mut block = Block::draw(modes, &tables, &mut g);
        block.call = Call { lanes: 64, active: 64, frames: 4096, count: 4096, ..block.call };
        in_a_row(1, &block, &mut g, tally);
    }
}
