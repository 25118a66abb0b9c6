//! The calls about one lane, about a block's spans and about a range of a
//! block: what document 01 has them answer, its refusals too.

mod drawn;

use ruled::api::halfband::Design;
use ruled::api::{Card, Lent, Rows, Settings, State};

use crate::phases::nine;
use crate::{Hash, pattern};

pub use drawn::{Draws, FIRST, Most, run};
pub(crate) use drawn::{cell, lengths, step};

use Buffer::{
    Add, Base0, Base1, Coefs, Curve, Cycle, Fm, Inner, Last, Mod0, Mod1, Numbers, Output, Pairs,
    Source0, Source1, State as Decimator, Steps, Stretch, Words, Work,
};

/// The calls; the single ones in the order of their codes.
#[derive(Clone, Copy, Debug, PartialEq, Eq)]
pub enum Kind {
    /// `PhaseRun::reads_lane`.
    Reads,
    /// `WaveRun::shape_at_lane`.
    Sample,
    /// `ShapedOscillator::prepare`.
    Prepare,
    /// `PhaseRun::stretch`.
    Stretch,
    /// The block run.
    Run,
    /// One lane's share of it.
    LaneRun,
}

impl Kind {
    /// Those about one lane and about a block's spans.
    pub const SINGLES: [Self; 4] = [Self::Reads, Self::Sample, Self::Prepare, Self::Stretch];

    /// The buffers that the call is lent, in its own order.
    #[must_use]
    pub fn buffers(self) -> &'static [Buffer] {
        match self {
            Self::Reads => &[
                Base0, Base1, Mod0, Mod1, Source0, Source1, Curve, Inner, Fm, Last,
            ],
            Self::Sample => &[Base0, Base1, Mod0, Mod1, Source0, Source1, Pairs, Last],
            Self::Prepare => &[
                Base0, Base1, Mod0, Mod1, Source0, Source1, Curve, Inner, Stretch, Add,
            ],
            Self::Stretch => &[Stretch, Add],
            Self::Run | Self::LaneRun => &[
                Coefs, Numbers, Base0, Base1, Mod0, Mod1, Source0, Source1, Curve, Cycle, Words,
                Steps, Inner, Output, Work, Pairs, Fm, Last, Decimator,
            ],
        }
    }

    /// Those that it changes.
    #[must_use]
    pub fn changed(self) -> &'static [Buffer] {
        match self {
            Self::Reads => &[Fm],
            Self::Sample => &[Pairs, Last],
            Self::Prepare => &[Inner, Stretch, Add],
            Self::Stretch => &[],
            Self::Run | Self::LaneRun => &[Output, Work, Pairs, Fm, Last, Decimator],
        }
    }

    /// Whether it runs a range.
    #[must_use]
    pub fn is_run(self) -> bool {
        matches!(self, Self::Run | Self::LaneRun)
    }

    /// Whether it is about one lane at one rendered frame or some.
    #[must_use]
    pub fn is_single(self) -> bool {
        self != Self::Prepare && !self.is_run()
    }

    /// Whether it is about one lane.
    #[must_use]
    pub fn has_lane(self) -> bool {
        self.is_single() || self == Self::LaneRun
    }

    /// Whether it has a rate.
    #[must_use]
    pub fn has_rate(self) -> bool {
        matches!(self, Self::Reads | Self::Prepare) || self.is_run()
    }

    /// How many words its answer has.
    fn words(self) -> usize {
        match self {
            Self::Reads => 11,
            Self::Sample | Self::Stretch => 3,
            Self::Prepare | Self::Run | Self::LaneRun => 2,
        }
    }
}

/// The buffers of all calls: those that are only read, from the spans on those
/// that a call writes, and the two that have no floats.
#[derive(Clone, Copy, Debug, PartialEq, Eq)]
pub enum Buffer {
    Base0,
    Base1,
    Mod0,
    Mod1,
    Source0,
    Source1,
    Curve,
    /// The designs' 36 coefficients.
    Coefs,
    /// The 13 sine and arctangent numbers.
    Numbers,
    Cycle,
    Inner,
    Stretch,
    Add,
    Fm,
    Pairs,
    Last,
    Output,
    Work,
    /// The decimator's.
    State,
    Words,
    Steps,
}

/// How many cells of each buffer are lent, 0 of those that a call hasn't.
pub type Lengths = [usize; BUFFERS];

const BUFFERS: usize = Buffer::ALL.len();

/// How many of the buffers have floats.
const FLOATS: usize = Words as usize;

impl Buffer {
    pub const ALL: [Self; 21] = [
        Base0, Base1, Mod0, Mod1, Source0, Source1, Curve, Coefs, Numbers, Cycle, Inner, Stretch,
        Add, Fm, Pairs, Last, Output, Work, Decimator, Words, Steps,
    ];

    /// Whether the table counts it among a call's written buffers.
    #[must_use]
    pub fn is_written(self, kind: Kind) -> bool {
        match self {
            Inner | Stretch | Add => kind == Kind::Prepare,
            Fm | Pairs | Last | Output | Work | Decimator => true,
            _ => false,
        }
    }

    /// Whether its cells belong to a lane each.
    #[must_use]
    pub fn is_of_lanes(self) -> bool {
        !matches!(self, Curve | Coefs | Numbers | Cycle)
    }

    /// Its place among modulations and sources, which are absent if empty.
    #[must_use]
    pub fn optional(self) -> Option<u32> {
        match self {
            Mod0 => Some(0),
            Mod1 => Some(1),
            Source0 => Some(2),
            Source1 => Some(3),
            _ => None,
        }
    }

    /// The cells that a call asks for.
    #[must_use]
    pub fn asked(self, call: &Call) -> u128 {
        let [n, frames, count, factor] =
            [call.lanes, call.frames, call.count, call.factor].map(u128::from);
        match self {
            Base0 | Base1 | Last => n,
            Mod0 | Mod1 | Source0 | Source1 | Output => frames * n,
            Curve => 1025,
            Coefs => 36,
            Numbers => 13,
            Cycle => 2048,
            Inner | Stretch | Add => frames.div_ceil(32) * n,
            Fm => 2 * n,
            Pairs => 4 * n,
            Work => count * factor * n,
            Decimator => 72 * n,
            Words | Steps => frames * factor * n,
        }
    }
}

/// The numbers of a call; each kind has some of them.
#[derive(Clone, Copy, Debug)]
pub struct Call {
    pub modes: [u32; 2],
    pub characters: [f32; 2],
    pub factor: u32,
    pub lanes: u32,
    pub active: u32,
    pub lane: u32,
    /// The block's host frames.
    pub frames: u32,
    /// The range: its first host frame and how many it has.
    pub first: u32,
    pub count: u32,
    /// A rendered frame, counted from the range's start; of a stretch the
    /// first that is asked for.
    pub frame: u32,
    /// How many frames a stretch is asked for.
    pub asked: u32,
    pub rate: u32,
    /// How many coefficients each design has.
    pub counts: [u32; 3],
    pub word: u32,
    pub step: u32,
    /// The sample to be shaped.
    pub x: f32,
}

impl Call {
    /// Its rendered frames. A number that the table refuses may wrap it.
    #[must_use]
    pub fn rendered(&self) -> u32 {
        self.count.wrapping_mul(self.factor)
    }

    /// In the oracle's own types.
    #[must_use]
    pub fn settings(&self) -> Settings {
        Settings {
            modes: self.modes,
            characters: self.characters,
            factor: self.factor as usize,
            n: self.lanes as usize,
            active: self.active as usize,
            frames: self.frames as usize,
            rate: self.rate,
        }
    }

    /// The designs of these counts.
    fn designs(&self, coefs: &[f32]) -> [Design; 3] {
        let (rows, _) = coefs.as_chunks();
        [0, 1, 2].map(|i| Design {
            coefs: rows[i],
            count: self.counts[i] as usize,
        })
    }
}

/// The first line of document 01's table that holds for a call that is lent
/// so many cells, or 0.
#[must_use]
pub fn refusal(kind: Kind, call: &Call, lengths: &Lengths) -> u32 {
    let is_single = kind.is_single();
    let has_modes = kind != Kind::Stretch;
    let has_range = kind != Kind::Prepare;
    let is_count = |count: &u32| (1..=12).contains(count);
    let [frames, first, count, frame, asked, factor] = [
        call.frames,
        call.first,
        call.count,
        call.frame,
        call.asked,
        call.factor,
    ]
    .map(u64::from);
    let asked = if kind == Kind::Stretch { asked } else { 1 };
    let is_outside = frame >= count * factor || frame + asked > count * factor;
    let is_short = |&&buffer: &&Buffer| {
        let have = lengths[buffer as usize];
        let is_absent = buffer.optional().is_some() && have == 0;
        !is_absent && (have as u128) < buffer.asked(call)
    };
    let short: Vec<&Buffer> = kind.buffers().iter().filter(is_short).collect();
    let lines = [
        (1, has_modes && call.modes.iter().any(|&mode| mode > 69)),
        (2, ![1, 2, 4, 8].contains(&call.factor)),
        (3, !(1..=64).contains(&call.lanes)),
        (3, call.active > call.lanes),
        (3, kind.has_lane() && call.lane >= call.active),
        (4, frames > 4096),
        (4, has_range && first + count > frames),
        (4, is_single && is_outside),
        (5, kind.has_rate() && !(8000..=192_000).contains(&call.rate)),
        (6, kind.is_run() && !call.counts.iter().all(is_count)),
        (7, short.iter().any(|buffer| !buffer.is_written(kind))),
        (8, short.iter().any(|buffer| buffer.is_written(kind))),
    ];
    lines.iter().find(|line| line.1).map_or(0, |line| line.0)
}

/// The buffers of some calls, by [`Buffer`]; a call may be lent fewer cells of
/// one than it has.
#[derive(Clone, Debug)]
pub struct Buffers {
    pub floats: [Vec<f32>; FLOATS],
    /// Phase words and steps.
    pub words: [Vec<u32>; 2],
}

/// What a call is lent.
pub struct Slices<'a> {
    pub lent: Lent<'a>,
    pub coefs: &'a [f32],
    pub numbers: &'a [f32],
    pub cycle: &'a [f32],
    pub words: &'a [u32],
    pub steps: &'a [u32],
    pub inner: &'a mut [f32],
    pub stretch: &'a mut [f32],
    pub add: &'a mut [f32],
    pub fm: &'a mut [f32],
    pub pairs: &'a mut [f32],
    pub last: &'a mut [f32],
    pub output: &'a mut [f32],
    pub work: &'a mut [f32],
    pub state: &'a mut [f32],
}

impl Buffers {
    /// The floats of some buffers, in their order, of so many cells each.
    pub fn new(
        buffers: &[Buffer],
        length: impl Fn(Buffer) -> usize,
        mut cell: impl FnMut(Buffer, usize) -> f32,
    ) -> Self {
        let mut floats = [const { Vec::new() }; FLOATS];
        for &buffer in buffers.iter().filter(|&&buffer| (buffer as usize) < FLOATS) {
            floats[buffer as usize] = (0..length(buffer)).map(|i| cell(buffer, i)).collect();
        }
        Self {
            floats,
            words: [const { Vec::new() }; 2],
        }
    }

    /// How many cells each has.
    #[must_use]
    pub fn lengths(&self) -> Lengths {
        Buffer::ALL.map(|buffer| match buffer {
            Words => self.words[0].len(),
            Steps => self.words[1].len(),
            _ => self.floats[buffer as usize].len(),
        })
    }

    /// The first cells of each, so many as `lengths` says.
    pub fn lend(&mut self, lengths: &Lengths) -> Slices<'_> {
        let mut each = lengths.iter();
        let cut = self.floats.each_mut().map(|cells| {
            let &length = each.next().expect("as many lengths");
            &mut cells[..length]
        });
        let [base0, base1, mod0, mod1, source0, source1, curve, rest @ ..] = cut;
        let [coefs, numbers, cycle, inner, stretch, add, rest @ ..] = rest;
        let [fm, pairs, last, output, work, state] = rest;
        let [words, steps] = &self.words;
        Slices {
            lent: Lent {
                base: [base0, base1],
                mods: [mod0, mod1],
                sources: [source0, source1],
                curve,
            },
            coefs,
            numbers,
            cycle,
            words: &words[..lengths[Words as usize]],
            steps: &steps[..lengths[Steps as usize]],
            inner,
            stretch,
            add,
            fm,
            pairs,
            last,
            output,
            work,
            state,
        }
    }

    /// Puts to a hash what a call has answered and left: the answer, then all
    /// cells of the buffers that it changes.
    pub(crate) fn fold(&self, kind: Kind, answer: &[u32], hash: &mut Hash) {
        let cells = kind
            .changed()
            .iter()
            .flat_map(|&buffer| &self.floats[buffer as usize]);
        for word in answer.iter().copied().chain(cells.map(|&x| pattern(x))) {
            hash.fold(word);
        }
    }
}

/// Stands for what a call isn't lent and the oracle asks for.
const NONE: [f32; 1025] = [0.0; 1025];

impl<'a> Slices<'a> {
    fn lengths(&self) -> Lengths {
        let Lent {
            base: [base0, base1],
            mods: [mod0, mod1],
            sources: [source0, source1],
            curve,
        } = self.lent;
        Buffer::ALL.map(|buffer| match buffer {
            Base0 => base0.len(),
            Base1 => base1.len(),
            Mod0 => mod0.len(),
            Mod1 => mod1.len(),
            Source0 => source0.len(),
            Source1 => source1.len(),
            Curve => curve.len(),
            Coefs => self.coefs.len(),
            Numbers => self.numbers.len(),
            Cycle => self.cycle.len(),
            Inner => self.inner.len(),
            Stretch => self.stretch.len(),
            Add => self.add.len(),
            Fm => self.fm.len(),
            Pairs => self.pairs.len(),
            Last => self.last.len(),
            Output => self.output.len(),
            Work => self.work.len(),
            Decimator => self.state.len(),
            Words => self.words.len(),
            Steps => self.steps.len(),
        })
    }

    /// What document 01 has the call answer: its number, its frames and
    /// then the list as nine words or the value's pattern.
    #[must_use]
    pub fn answer(self, kind: Kind, call: &Call) -> Vec<u32> {
        let number = refusal(kind, call, &self.lengths());
        let mut words = vec![number];
        if number == 0 {
            let frames = if kind == Kind::Prepare {
                call.frames
            } else {
                call.count
            };
            words.push(frames);
            words.extend(self.accepted(kind, call));
        }
        words.resize(kind.words(), 0);
        words
    }

    /// The oracle with what the call is lent; a sample has no curve, and a
    /// stretch has nothing and no modes.
    fn card(&self, kind: Kind, call: &Call) -> Card<'a> {
        let (modes, lent) = match kind {
            Kind::Reads | Kind::Prepare | Kind::Run | Kind::LaneRun => (call.modes, self.lent),
            Kind::Sample => {
                let curve = &NONE;
                (call.modes, Lent { curve, ..self.lent })
            }
            Kind::Stretch => {
                let lent = Lent {
                    base: [&NONE; 2],
                    mods: [&[]; 2],
                    sources: [&[]; 2],
                    curve: &NONE,
                };
                ([0; 2], lent)
            }
        };
        Card::new(&Call { modes, ..*call }.settings(), &lent)
    }

    /// The oracle's answer to a call that the table passes.
    fn accepted(mut self, kind: Kind, call: &Call) -> Vec<u32> {
        let card = self.card(kind, call);
        match kind {
            Kind::Reads | Kind::Sample | Kind::Stretch => return self.single(kind, call, &card),
            Kind::Prepare => card.prepare(self.inner, self.stretch, self.add),
            Kind::Run => self.run(call, &card),
            Kind::LaneRun => self.lane_run(call, &card),
        }
        vec![]
    }

    fn single(self, kind: Kind, call: &Call, card: &Card<'_>) -> Vec<u32> {
        let [first, frame, asked, lane] =
            [call.first, call.frame, call.asked, call.lane].map(|x| x as usize);
        let state = State {
            pairs: self.pairs,
            fm: self.fm,
            last: self.last,
        };
        match kind {
            Kind::Reads => {
                let list =
                    card.reads_lane(first, frame, lane, call.word, call.step, self.inner, state);
                nine(&list).to_vec()
            }
            Kind::Sample => {
                let y = card.shape_at_lane(first, frame, lane, call.step, call.x, state);
                vec![pattern(y)]
            }
            _ => {
                let asked = frame..frame + asked;
                let steepest = card.stretch(first, asked, lane, call.step, self.stretch, self.add);
                vec![pattern(steepest)]
            }
        }
    }

    /// The block run, after which the other lanes' cells are put back: the
    /// crate has no run of one lane.
    fn lane_run(&mut self, call: &Call, card: &Card<'_>) {
        let before = self.written().map(|cells| cells.to_vec());
        self.run(call, card);
        for (after, before) in self.written().into_iter().zip(before) {
            for (at, cell) in before.into_iter().enumerate() {
                if at as u32 % call.lanes != call.lane {
                    after[at] = cell;
                }
            }
        }
    }

    /// What a run writes.
    fn written(&mut self) -> [&mut [f32]; 6] {
        [
            self.output,
            self.work,
            self.pairs,
            self.fm,
            self.last,
            self.state,
        ]
    }

    fn run(&mut self, call: &Call, card: &Card<'_>) {
        let [first, count] = [call.first, call.count].map(|x| x as usize);
        let rows = Rows {
            cycle: self.cycle,
            words: self.words,
            steps: self.steps,
            inner: self.inner,
        };
        let state = State {
            pairs: self.pairs,
            fm: self.fm,
            last: self.last,
        };
        card.run(
            first..first + count,
            &call.designs(self.coefs),
            &rows,
            self.output,
            self.work,
            state,
            self.state,
        );
    }
}
