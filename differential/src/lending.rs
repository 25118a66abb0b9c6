//! What a call is lent, and calls of the library, with the oracle's beside them, on the same cells.

use crate::cycle;
use crate::guards::{GUARDS, differs, unchanged};
use crate::phases::nine;
use crate::tally::Tally;
use crate::{card, probe};
use programs::blocks::rows;
use programs::singles::{Buffer, Buffers, Call, Draws, Kind, Lengths, Slices, refusal};
use programs::{Generator, pattern};

/// The library's answer as words: its number, its frames and then the list or the value's pattern.
pub fn ported(kind: Kind, call: &Call, mut lent: Slices<'_>) -> Vec<u64> {
    let plain = |a: card::Answer| [a.number, a.frames].map(u64::from).to_vec();
    let valued = |a: card::Valued| [a.number, a.frames, pattern(a.value)].map(u64::from).to_vec();
    match kind {
        Kind::Reads => {
            let a = probe::reads_lane(call, lent);
            [a.number, a.frames].into_iter().map(u64::from).chain(nine(&a.reads)).collect()
        }
        Kind::Sample => valued(probe::shape_at_lane(call, lent)),
        Kind::Prepare => plain(card::prepare(call, lent)),
        Kind::Stretch => valued(card::stretch(call, lent)),
        Kind::Run => plain(card::block_run(call, &mut lent)),
        Kind::LaneRun => plain(card::lane_run(call, &mut lent)),
    }
}

/// Whether an accepted call leaves the cell of a buffer: it is another lane's, past what is asked for, or
/// an output row's outside the range.
fn is_left(kind: Kind, buffer: Buffer, call: &Call, at: usize) -> bool {
    let [row, lane] = [at as u32 / call.lanes, at as u32 % call.lanes];
    let is_others = match kind {
        Kind::Prepare | Kind::Run => lane >= call.active,
        _ => lane != call.lane,
    };
    let is_outside = kind.is_run()
        && (call.count == 0 || buffer == Buffer::Output && !(call.first..call.first + call.count).contains(&row));
    at as u128 >= buffer.asked(call) || !kind.changed().contains(&buffer) || is_others || is_outside
}

/// The buffers of a call, and how many cells of each it is lent; each has guard cells past those.
pub struct Lending {
    pub kind: Kind,
    pub cells: Buffers,
    pub lengths: Lengths,
}

impl Lending {
    /// Buffers for a drawn call: half of the time some cells longer than asked for, and without what isn't
    /// given. `fixed` has the cells that aren't drawn.
    pub fn drawn<'a>(
        kind: Kind,
        call: &Call,
        draws: &Draws,
        floats: Floats,
        fixed: impl Fn(Buffer) -> &'a [f32],
        g: &mut Generator,
    ) -> Self {
        let more = if draws.how >> 25 & 1 == 0 { 0 } else { GUARDS };
        let asked = |buffer: Buffer| buffer.asked(call) as usize + more;
        let is_given = |buffer: Buffer| buffer.optional().is_none_or(|i| draws.gives(i));
        let is_lent = |buffer: Buffer| kind.buffers().contains(&buffer) && is_given(buffer);
        let length = |buffer: Buffer| asked(buffer) + GUARDS;
        let mut cells = Buffers::new(kind.buffers(), length, |buffer, i| match fixed(buffer).get(i) {
            Some(&cell) => cell,
            None => floats.cell(buffer, g),
        });
        if kind.is_run() {
            cells.words = rows(g, asked(Buffer::Words), call.lanes as usize, floats.is_wild());
            cycle::to_entries(&mut cells.words[0], g);
        }
        let lengths = Buffer::ALL.map(|buffer| if is_lent(buffer) { asked(buffer) } else { 0 });
        Self { kind, cells, lengths }
    }

    /// Lends a run the work of its range, and as many cells more as of the coefficients.
    pub fn fit_work(&mut self, call: &Call) {
        let more = self.lengths[Buffer::Coefs as usize] - Buffer::Coefs.asked(call) as usize;
        self.lengths[Buffer::Work as usize] = Buffer::Work.asked(call) as usize + more;
    }

    /// The lent cells of a buffer and its guard cells.
    pub fn part(&mut self, buffer: Buffer) -> &mut [f32] {
        &mut self.cells.floats[buffer as usize][..self.lengths[buffer as usize] + GUARDS]
    }

    /// The same of some buffers, as they are now.
    fn parts(&mut self, buffers: &[Buffer]) -> Vec<Vec<f32>> {
        buffers.iter().map(|&buffer| self.part(buffer).to_vec()).collect()
    }

    /// One call of both on the same cells. They go on as the library leaves them.
    pub fn compare(&mut self, call: &Call, tally: &mut Tally) {
        let kind = self.kind;
        // what a call may change, and the spans and `last` that it only reads
        let is_state = |b: &Buffer| (Buffer::Inner as usize..=Buffer::State as usize).contains(&(*b as usize));
        let state: Vec<Buffer> = kind.buffers().iter().copied().filter(is_state).collect();
        let before = self.parts(&state);
        let want = self.cells.lend(&self.lengths).answer(kind, call);
        let theirs = self.parts(&state);
        for (&buffer, before) in state.iter().zip(&before) {
            self.part(buffer).copy_from_slice(before);
        }
        let got = ported(kind, call, self.cells.lend(&self.lengths));

        let is_refused = want[0] != 0;
        let want: Vec<u64> = want.into_iter().map(u64::from).collect();
        tally.case(got == want, || format!("{kind:?} of {call:x?}: {got:08x?}, the oracle {want:08x?}"));
        for (i, &buffer) in state.iter().enumerate() {
            let ours = self.part(buffer);
            let kept = |at| is_refused || is_left(kind, buffer, call, at);
            let wrong = differs(ours, &theirs[i]).or_else(|| unchanged(ours, &before[i], kept));
            tally.case(wrong.is_none(), || format!("{buffer:?} of {kind:?} of {call:x?}: cell {wrong:?}"));
        }
    }

    /// One run of the library alone: its number and frames by the table, and the cells that it leaves.
    pub fn alone(&mut self, call: &Call, tally: &mut Tally) {
        let kind = self.kind;
        let before = self.parts(kind.changed());
        let number = refusal(kind, call, &self.lengths);
        let want = [number, if number == 0 { call.count } else { 0 }].map(u64::from);
        let got = ported(kind, call, self.cells.lend(&self.lengths));
        tally.case(got == want, || format!("{kind:?} of {call:x?}: {got:08x?}, the table {want:08x?}"));
        for (&buffer, before) in kind.changed().iter().zip(&before) {
            let kept = |at| number != 0 || is_left(kind, buffer, call, at);
            let wrong = unchanged(self.part(buffer), before, kept);
            tally.case(wrong.is_none(), || format!("{buffer:?} left by {kind:?} of {call:x?}: cell {wrong:?}"));
        }
    }
}

/// The floats that a call is lent.
#[derive(Clone, Copy, Debug, PartialEq, Eq)]
pub enum Floats {
    Tame,
    /// Tame, but one of some hundred.
    Mixed,
    Wild,
    /// Any pattern.
    Any,
    /// NaN, but one of eight.
    Nans,
    /// NaN.
    AllNan,
}

impl Floats {
    pub fn draw(g: &mut Generator) -> Self {
        match g.draw() >> 28 {
            0..=5 => Self::Tame,
            6..=9 => Self::Mixed,
            10..=12 => Self::Wild,
            13 => Self::Any,
            14 => Self::Nans,
            _ => Self::AllNan,
        }
    }

    pub fn is_wild(self) -> bool {
        !matches!(self, Self::Tame | Self::Mixed)
    }

    pub fn cell(self, buffer: Buffer, g: &mut Generator) -> f32 {
        let [how, draw] = [g.draw(), g.draw()];
        let nan = f32::from_bits(draw | 0x7f80_0001);
        match self {
            Self::Tame => buffer.cell(draw, false),
            Self::Mixed => buffer.cell(draw, how >> 27 == 0),
            Self::Nans if how >> 29 != 0 => nan,
            Self::Wild | Self::Nans => buffer.cell(draw, true),
            Self::Any => f32::from_bits(draw),
            Self::AllNan => nan,
        }
    }
}

/// All pairs of modes in turn, every mode in each slot once in 70.
pub fn pair(i: u64) -> [u32; 2] {
    [i % 70, (29 * i + i / 70) % 70].map(|mode| mode as u32)
}
