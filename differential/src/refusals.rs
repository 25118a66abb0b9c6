//! Every cause of a refusal by document 01's table, with the neighbour that passes.

use crate::guards::{GUARDS, sets, unchanged};
use crate::lending::{Floats, Lending};
use crate::tally::Tally;
use programs::Generator;
use programs::blocks::{angles, rows};
use programs::singles::{Buffer, Buffers, Call, Kind, Lengths, refusal};

/// What a cause sets.
#[derive(Clone, Copy, Debug, PartialEq, Eq)]
pub enum Argument {
    Mode0,
    Mode1,
    Factor,
    Lanes,
    Active,
    Lane,
    Frames,
    Range,
    Frame,
    Asked,
    Rate,
    Count0,
    Count1,
    Count2,
    Cells(Buffer),
}

impl Argument {
    fn is_of(self, kind: Kind) -> bool {
        match self {
            Self::Mode0 | Self::Mode1 => kind != Kind::Stretch,
            Self::Factor | Self::Lanes | Self::Active | Self::Frames => true,
            Self::Lane => kind.has_lane(),
            Self::Frame => kind.is_single(),
            Self::Range => kind != Kind::Prepare,
            Self::Asked => kind == Kind::Stretch,
            Self::Rate => kind.has_rate(),
            Self::Count0 | Self::Count1 | Self::Count2 => kind.is_run(),
            Self::Cells(buffer) => kind.buffers().contains(&buffer),
        }
    }
}

/// A cause's line, 0 where it is a neighbour that passes; what it sets, and how.
type NumberCause = (u32, Argument, fn(&mut Call));

/// The line of what some calls refuse and others pass.
const OPEN: u32 = u32::MAX;

/// The line of a range with no frames: 4 in a call about one of them, and open in a run, whose work
/// buffer then can't be too short.
const EMPTY: u32 = OPEN - 1;

/// The line of no active lane: 3 in a call about one of them, and open in others.
const NO_LANE: u32 = OPEN - 2;

/// Those that set a number. Later ones go by what earlier ones have set.
const NUMBER_CAUSES: [NumberCause; 80] = {
    use Argument::*;
    [
        (0, Mode0, |c| c.modes[0] = 69),
        (1, Mode0, |c| c.modes[0] = 70),
        (1, Mode0, |c| c.modes[0] = 256),
        (1, Mode0, |c| c.modes[0] = u32::MAX),
        (0, Mode1, |c| c.modes[1] = 69),
        (1, Mode1, |c| c.modes[1] = 70),
        (1, Mode1, |c| c.modes[1] = 256),
        (1, Mode1, |c| c.modes[1] = u32::MAX),
        (2, Factor, |c| c.factor = 0),
        (0, Factor, |c| c.factor = 1),
        (0, Factor, |c| c.factor = 2),
        (2, Factor, |c| c.factor = 3),
        (0, Factor, |c| c.factor = 4),
        (2, Factor, |c| c.factor = 5),
        (2, Factor, |c| c.factor = 6),
        (2, Factor, |c| c.factor = 7),
        (0, Factor, |c| c.factor = 8),
        (2, Factor, |c| c.factor = 9),
        (2, Factor, |c| c.factor = 16),
        (2, Factor, |c| c.factor = u32::MAX),
        (3, Lanes, |c| c.lanes = 0),
        (0, Lanes, |c| (c.lanes, c.active, c.lane) = (1, 1, 0)),
        (0, Lanes, |c| c.lanes = 64),
        (3, Lanes, |c| c.lanes = 65),
        (3, Lanes, |c| c.lanes = u32::MAX),
        (NO_LANE, Active, |c| c.active = 0),
        (0, Active, |c| c.active = c.lanes),
        (3, Active, |c| c.active = c.lanes.wrapping_add(1)),
        (3, Active, |c| c.active = u32::MAX),
        (0, Lane, |c| c.lane = c.active.wrapping_sub(1)),
        (3, Lane, |c| c.lane = c.active),
        (3, Lane, |c| c.lane = c.lanes),
        (3, Lane, |c| c.lane = c.lane.wrapping_add(256)),
        (3, Lane, |c| c.lane = u32::MAX),
        (OPEN, Frames, |c| c.frames = 0),
        (0, Frames, |c| c.frames = c.first + c.count),
        (0, Frames, |c| c.frames = 4096),
        (4, Frames, |c| c.frames = 4097),
        (4, Frames, |c| c.frames = u32::MAX),
        (0, Range, |c| c.first = c.frames.wrapping_sub(c.count)),
        (4, Range, |c| c.first = c.frames.wrapping_sub(c.count).wrapping_add(1)),
        (0, Range, |c| c.count = c.frames.wrapping_sub(c.first)),
        (4, Range, |c| c.count = c.frames.wrapping_sub(c.first).wrapping_add(1)),
        (0, Range, |c| (c.first, c.count, c.frame, c.asked) = (0, 1, 0, 1)),
        (EMPTY, Range, |c| c.count = 0),
        (EMPTY, Range, |c| (c.first, c.count) = (c.frames, 0)),
        (4, Range, |c| (c.first, c.count) = (c.frames.wrapping_add(1), 0)),
        (4, Range, |c| (c.first, c.count) = (u32::MAX, 1)),
        (4, Range, |c| (c.first, c.count) = (1, u32::MAX)),
        (4, Range, |c| (c.first, c.count) = (u32::MAX, u32::MAX)),
        (0, Frame, |c| (c.frame, c.asked) = (c.rendered().wrapping_sub(1), 1)),
        (4, Frame, |c| (c.frame, c.asked) = (c.rendered(), 0)),
        (4, Frame, |c| (c.frame, c.asked) = (c.rendered(), 1)),
        (4, Frame, |c| c.frame = u32::MAX),
        (0, Asked, |c| c.asked = 0),
        (0, Asked, |c| c.asked = 1),
        (0, Asked, |c| c.asked = c.rendered().wrapping_sub(c.frame)),
        (4, Asked, |c| c.asked = c.rendered().wrapping_sub(c.frame).wrapping_add(1)),
        (4, Asked, |c| c.asked = u32::MAX),
        (5, Rate, |c| c.rate = 0),
        (5, Rate, |c| c.rate = 7_999),
        (0, Rate, |c| c.rate = 8_000),
        (0, Rate, |c| c.rate = 192_000),
        (5, Rate, |c| c.rate = 192_001),
        (5, Rate, |c| c.rate = u32::MAX),
        (6, Count0, |c| c.counts[0] = 0),
        (0, Count0, |c| c.counts[0] = 1),
        (0, Count0, |c| c.counts[0] = 12),
        (6, Count0, |c| c.counts[0] = 13),
        (6, Count0, |c| c.counts[0] = u32::MAX),
        (6, Count1, |c| c.counts[1] = 0),
        (0, Count1, |c| c.counts[1] = 1),
        (0, Count1, |c| c.counts[1] = 12),
        (6, Count1, |c| c.counts[1] = 13),
        (6, Count1, |c| c.counts[1] = u32::MAX),
        (6, Count2, |c| c.counts[2] = 0),
        (0, Count2, |c| c.counts[2] = 1),
        (0, Count2, |c| c.counts[2] = 12),
        (6, Count2, |c| c.counts[2] = 13),
        (6, Count2, |c| c.counts[2] = u32::MAX),
    ]
};

pub struct Cause {
    line: u32,
    argument: Argument,
    pub set: Box<dyn Fn(&mut Asked)>,
}

const ALL: usize = usize::MAX;

/// The causes of a kind: its numbers', and one cell or all cells lacking of each of its buffers.
pub fn causes(kind: Kind) -> Vec<Cause> {
    let line_of = |line| match line {
        EMPTY if kind.is_single() => 4,
        NO_LANE if kind.has_lane() => 3,
        EMPTY | NO_LANE => OPEN,
        _ => line,
    };
    let numbers = NUMBER_CAUSES.into_iter().map(|(line, argument, set)| Cause {
        line: line_of(line),
        argument,
        set: Box::new(move |asked| set(&mut asked.call)),
    });
    let lacking = Buffer::ALL.into_iter().flat_map(|buffer| {
        let line = if buffer.is_written(kind) { 8 } else { 7 };
        // an empty modulation or source is absent
        let without = if buffer.optional().is_some() { 0 } else { line };
        [(line, 1), (without, ALL)].map(|(line, cells)| Cause {
            line,
            argument: Argument::Cells(buffer),
            set: Box::new(move |asked| asked.lacking[buffer as usize] = cells),
        })
    });
    numbers.chain(lacking).filter(|cause| cause.argument.is_of(kind)).collect()
}

/// A call that is right but for the causes that are put in.
#[derive(Clone, Copy, Debug)]
pub struct Asked {
    pub call: Call,
    pub lacking: Lengths,
}

impl Asked {
    /// Nothing is lacking.
    pub fn new(call: Call) -> Self {
        Self { call, lacking: [0; Buffer::ALL.len()] }
    }

    /// The lengths that are lent: what the numbers ask for, those that are refused cut down, less what
    /// is lacking.
    fn lengths(&self, kind: Kind) -> Lengths {
        let Call { factor, lanes, frames, count, .. } = self.call;
        let [frames, count] = [frames, count].map(|x| x.min(4097));
        let call = Call { factor: factor.min(9), lanes: lanes.min(65), frames, count, ..self.call };
        Buffer::ALL.map(|buffer| {
            let is_lent = kind.buffers().contains(&buffer);
            let asked = if is_lent { buffer.asked(&call) as usize } else { 0 };
            asked.saturating_sub(self.lacking[buffer as usize])
        })
    }
}

/// Calls that the table passes, also with any of the numbers that pass. The least of them has a single
/// cell a buffer, so that a modulation that lacks one is absent.
fn right(kind: Kind) -> [Asked; 3] {
    let modes = match kind {
        Kind::Sample => [58, 21],
        Kind::Run | Kind::LaneRun => [39, 21],
        _ => [39, 12],
    };
    let call = Call {
        modes,
        characters: [0.25, 0.75],
        factor: 4,
        lanes: 8,
        active: 5,
        lane: 3,
        frames: 40,
        first: 2,
        count: 30,
        frame: 9,
        asked: 3,
        rate: 48_000,
        counts: [10, 6, 5],
        word: 0x1234_5678,
        step: 0x0123_4567,
        x: 0.625,
    };
    // a run writes rows of all of them
    let (frames, count) = if kind.is_run() { (192, 24) } else { (4096, 96) };
    let long = Call { factor: 8, lanes: 2, active: 2, lane: 1, frames, first: frames - count, count, ..call };
    let least = Call { factor: 1, lanes: 1, active: 1, lane: 0, frames: 1, first: 0, count: 1, ..call };
    let least = Call { frame: 0, asked: 1, ..least };
    [call, long, least].map(Asked::new)
}

/// Buffers that are large enough for every call of a refusal. The oracle has its own sine and arctangent
/// numbers.
fn largest(kind: Kind, g: &mut Generator) -> Lending {
    let most = Call { factor: 9, lanes: 65, frames: 4097, count: 4097, ..right(kind)[0].call };
    let length = |buffer: Buffer| buffer.asked(&most) as usize + GUARDS;
    let angles = angles();
    let mut cells = Buffers::new(kind.buffers(), length, |buffer, i| match angles.get(i) {
        Some(&number) if buffer == Buffer::Numbers => number,
        _ => Floats::Mixed.cell(buffer, g),
    });
    if kind.is_run() {
        cells.words = rows(g, length(Buffer::Words), 8, false);
    }
    Lending { kind, cells, lengths: [0; Buffer::ALL.len()] }
}

/// The line of some causes together, where it can be told from theirs.
fn line(causes: &[&Cause]) -> Option<u32> {
    let lines = causes.iter().map(|cause| cause.line).filter(|&line| line != 0);
    match lines.min() {
        Some(_) if causes.iter().any(|cause| cause.line == OPEN) => None,
        line => Some(line.unwrap_or(0)),
    }
}

/// One call with some causes put in.
fn refused(right: &Asked, causes: &[&Cause], is_told: bool, lending: &mut Lending, tally: &mut Tally) {
    let mut asked = *right;
    for cause in causes {
        (cause.set)(&mut asked);
    }
    lending.lengths = asked.lengths(lending.kind);
    let table = refusal(lending.kind, &asked.call, &lending.lengths);
    if let Some(line) = line(causes).filter(|_| is_told) {
        tally.case(line == table, || format!("{:?} of {asked:x?}: {line}, the table {table}", lending.kind));
    }
    lending.compare(&asked.call, tally);
}

/// Some of them, in their order: each with the same chance, which is drawn too.
pub fn some<'a>(causes: &'a [Cause], g: &mut Generator) -> Vec<&'a Cause> {
    let share = 4 + (g.draw() >> 8) % 28;
    causes.iter().filter(|_| (g.draw() >> 8).is_multiple_of(share)).collect()
}

/// For each kind no cause, every cause alone and every two; and some drawn ones together. The read
/// buffers are as they were after all of it.
pub fn compare(kinds: &[Kind], count: u64, tally: &mut Tally) {
    let mut g = tally.generator(0x1656_67b1);
    for &kind in kinds {
        let causes = causes(kind);
        let arguments: Vec<Argument> = causes.iter().map(|cause| cause.argument).collect();
        let mut lending = largest(kind, &mut g);
        let before = lending.cells.clone();
        for (i, right) in right(kind).iter().enumerate() {
            sets(&arguments, 2, &mut |set| {
                let set: Vec<&Cause> = set.iter().map(|&at| &causes[at]).collect();
                refused(right, &set, i < 2, &mut lending, tally);
            });
            for _ in 0..count / 8 {
                refused(right, &some(&causes, &mut g), false, &mut lending, tally);
            }
        }
        for buffer in Buffer::ALL.into_iter().take(Buffer::Inner as usize) {
            let [after, before] = [&lending.cells, &before].map(|cells| &cells.floats[buffer as usize]);
            let wrong = unchanged(after, before, |_| true);
            tally.case(wrong.is_none(), || format!("{buffer:?} after all refusals of {kind:?}: cell {wrong:?}"));
        }
        let is_same = lending.cells.words == before.words;
        tally.case(is_same, || format!("words or steps after all refusals of {kind:?}"));
    }
}
