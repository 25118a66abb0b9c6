//! Demand 3 on the library alone: a block in one call, against any list of calls, block runs and runs of the
//! lane, whose accepted ranges follow one another from the block's start to its end.

use super::drawn::{Block, Tables, next};
use crate::guards::{GUARDS, differs};
use crate::lending::{Floats, Lending, pair};
use crate::refusals::{Asked, Cause, causes, some};
use crate::tally::Tally;
use programs::Generator;
use programs::singles::{Buffer, Buffers, Call, Kind, refusal};

/// What the calls of a cut block are drawn from, with the causes of their refusals.
type Kinds = [(Kind, Vec<Cause>); 2];

/// A lane's state.
const STATE: [Buffer; 4] = [Buffer::Pairs, Buffer::Fm, Buffer::Last, Buffer::State];

/// A lane of a block in the course of a run.
struct Lane<'a> {
    block: &'a Block<'a>,
    lane: u32,
    /// What every accepted call is lent: the lane's cells and those of no lane, its state as the calls
    /// before have left it. Other cells aren't used.
    cells: Buffers,
    /// The lane's output so far.
    output: Vec<f32>,
}

/// The same float, a NaN as any other NaN.
fn same(x: f32, g: &mut Generator) -> f32 {
    if x.is_nan() { f32::from_bits(g.draw() | 0x7f80_0001) } else { x }
}

impl Lane<'_> {
    /// A call of the block with this range and any count of active lanes, the lane among them, or the lane's.
    fn call(&self, first: u32, count: u32, g: &mut Generator) -> Call {
        let block = &self.block.call;
        Call {
            characters: block.characters.map(|x| same(x, g)),
            active: self.lane + 1 + (g.draw() >> 8) % (block.lanes - self.lane),
            lane: self.lane,
            first,
            count,
            ..*block
        }
    }

    /// Whether a cell is the same in all accepted calls, or carried from one to the next.
    fn holds(&self, buffer: Buffer, at: usize) -> bool {
        let Call { lanes, .. } = self.block.call;
        !matches!(buffer, Buffer::Output | Buffer::Work)
            && (at as u128) < buffer.asked(&self.block.call)
            && (!buffer.is_of_lanes() || at as u32 % lanes == self.lane)
    }

    /// Buffers for a call, some longer than it asks for. All cells that aren't held are drawn afresh.
    fn lend(&self, kind: Kind, call: &Call, g: &mut Generator) -> Lending {
        let is_given = |buffer: Buffer| buffer.optional().is_none_or(|i| self.block.draws.gives(i));
        let is_lent = |buffer: Buffer| kind.buffers().contains(&buffer) && is_given(buffer);
        let lengths = Buffer::ALL.map(|buffer| match is_lent(buffer) {
            true => buffer.asked(call) as usize + [0, 0, 1, 70][(g.draw() >> 30) as usize],
            false => 0,
        });
        let floats = Floats::draw(g);
        let length = |buffer: Buffer| lengths[buffer as usize] + GUARDS;
        let mut cells = Buffers::new(kind.buffers(), length, |buffer, i| match self.holds(buffer, i) {
            true => same(self.cells.floats[buffer as usize][i], g),
            false => floats.cell(buffer, g),
        });
        cells.words = [(Buffer::Words, 0), (Buffer::Steps, 1)].map(|(buffer, of)| {
            let cell = |i| if self.holds(buffer, i) { self.cells.words[of][i] } else { g.draw() };
            (0..lengths[buffer as usize]).map(cell).collect()
        });
        Lending { kind, cells, lengths }
    }

    /// The lane's cells of a buffer, by their places.
    fn column(&self, buffer: Buffer) -> impl Iterator<Item = usize> + use<> {
        let Call { lanes, .. } = self.block.call;
        (self.lane as usize..buffer.asked(&self.block.call) as usize).step_by(lanes as usize)
    }

    /// Takes the lane's state back.
    fn take(&mut self, lending: &Lending) {
        for buffer in STATE {
            for at in self.column(buffer) {
                self.cells.floats[buffer as usize][at] = lending.cells.floats[buffer as usize][at];
            }
        }
    }

    fn accepted(&mut self, kind: Kind, first: u32, count: u32, g: &mut Generator, tally: &mut Tally) {
        let call = self.call(first, count, g);
        let mut lending = self.lend(kind, &call, g);
        lending.alone(&call, tally);
        self.take(&lending);
        let rows = self.column(Buffer::Output).skip(first as usize).take(count as usize);
        self.output.extend(rows.map(|at| lending.cells.floats[Buffer::Output as usize][at]));
    }

    /// An accepted run of another lane, if one is active, which is lent this lane's state.
    fn others(&mut self, first: u32, count: u32, g: &mut Generator, tally: &mut Tally) {
        let call = self.call(first, count, g);
        let lane = (g.draw() >> 8) % call.active;
        if lane != self.lane {
            let mut lending = self.lend(Kind::LaneRun, &call, g);
            lending.alone(&Call { lane, ..call }, tally);
            self.take(&lending);
        }
    }

    /// A call that some causes are put into, if the table refuses it; every other time it is lent the
    /// lane's state.
    fn refused(&mut self, first: u32, (kind, causes): &(Kind, Vec<Cause>), g: &mut Generator, tally: &mut Tally) {
        let Call { frames, .. } = self.block.call;
        let right = self.call(first, next(first, (frames - first).max(1), g), g);
        let mut asked = Asked::new(right);
        for cause in some(causes, g) {
            (cause.set)(&mut asked);
        }
        let mut lending = self.lend(*kind, &right, g);
        for (length, lacking) in lending.lengths.iter_mut().zip(asked.lacking) {
            *length = length.saturating_sub(lacking);
        }
        if refusal(*kind, &asked.call, &lending.lengths) == 0 {
            return;
        }
        let is_lent = g.draw() >> 31 == 0;
        if !is_lent {
            for buffer in STATE {
                lending.cells.floats[buffer as usize].fill_with(|| Floats::Wild.cell(buffer, g));
            }
        }
        lending.alone(&asked.call, tally);
        if is_lent {
            self.take(&lending);
        }
    }

    /// Accepted ranges from the block's start to its end, empty ones, refused calls and other lanes' among
    /// them.
    fn run(&mut self, kinds: &Kinds, g: &mut Generator, tally: &mut Tally) {
        let Call { frames, .. } = self.block.call;
        let mut first = 0;
        loop {
            let of = &kinds[(g.draw() >> 31) as usize];
            match g.draw() >> 28 {
                0..=3 => self.refused(first, of, g, tally),
                4 => self.accepted(of.0, first, 0, g, tally),
                5 => self.others(first, frames - first, g, tally),
                _ if first == frames => return,
                _ => {
                    let count = next(first, frames - first, g);
                    self.accepted(of.0, first, count, g, tally);
                    first += count;
                }
            }
        }
    }

    /// The lane's output and then its state.
    fn left(&self) -> [Vec<f32>; 2] {
        let cells = |buffer: Buffer| self.column(buffer).map(move |at| self.cells.floats[buffer as usize][at]);
        [self.output.clone(), STATE.into_iter().flat_map(cells).collect()]
    }
}

/// As many blocks, each in one call and in a list of them.
pub fn compare(count: u64, tally: &mut Tally) {
    let mut g = tally.generator(0x7feb_352d);
    let tables = Tables::new(&mut g);
    let kinds = [Kind::Run, Kind::LaneRun].map(|kind| (kind, causes(kind)));
    for i in 0..count {
        let mut block = Block::draw(pair(i), &tables, &mut g);
        if g.draw() >> 31 == 0 {
            block.numbers.fill_with(|| Floats::Wild.cell(Buffer::Numbers, &mut g));
        }
        let lane = (g.draw() >> 8) % block.call.lanes;
        let cells = block.lend(&mut g).cells;
        let [mut whole, mut cut] =
            [cells.clone(), cells].map(|cells| Lane { block: &block, lane, cells, output: Vec::new() });
        whole.accepted(Kind::Run, 0, block.call.frames, &mut g, tally);
        cut.run(&kinds, &mut g, tally);
        for (name, (want, got)) in ["output", "state"].into_iter().zip(whole.left().iter().zip(&cut.left())) {
            let wrong = differs(got, want);
            tally.case(wrong.is_none(), || {
                format!("{name} of lane {lane} of a cut block of {:x?}: cell {wrong:?}", block.call)
            });
        }
    }
}
