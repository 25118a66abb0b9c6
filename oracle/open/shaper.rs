//! mod.rs: the mode facts, `prepare`, the two runs and the run of a range.
//! Modes go by number, in the order of [`Mode`]; an empty modulation or
//! source slice means absent.

use std::ops::Range;

use osc::Wave;

use super::{
    FmType, Inputs, LaneReads, Mode, Modulated, Oscillator, PhaseRun, PhaseStage, SLOTS,
    ShapedOscillator, ShaperInputs, Shapers, Slot, Source, Stage, Table, WaveRun, WaveStage,
};

pub use super::curve::open as curve;
pub use super::halfband::open as halfband;
pub use super::lanes::open as lanes;
pub use super::phase::open as phase;
pub use super::wave::open as wave;

use halfband::{Design, Kept};

/// A phase increment as cycles a frame.
pub const PER_CYCLE: f32 = super::PER_CYCLE;

/// The mode of a number.
///
/// # Panics
///
/// Above 69.
#[must_use]
pub fn mode(number: u32) -> Mode {
    Mode::ALL[number as usize]
}

/// 0 none, 1 to 7 in [`Source`]'s order.
#[must_use]
pub fn source(number: u32) -> u32 {
    match mode(number).source() {
        None => 0,
        Some(Source::Osc1) => 1,
        Some(Source::Osc2) => 2,
        Some(Source::Noise) => 3,
        Some(Source::Sub) => 4,
        Some(Source::Filter1) => 5,
        Some(Source::Filter2) => 6,
        Some(Source::Own) => 7,
    }
}

/// 0 none, 1 to 3 in [`FmType`]'s order.
#[must_use]
pub fn fm_type(number: u32) -> u32 {
    match mode(number).fm_type() {
        None => 0,
        Some(FmType::ThruZero) => 1,
        Some(FmType::Exponential) => 2,
        Some(FmType::Linear) => 3,
    }
}

/// 0 none, 1 FM (whichever type), 2 phase distortion, 3 AM, 4 Ring.
#[must_use]
pub fn modulated(number: u32) -> u32 {
    match mode(number).modulated() {
        None => 0,
        Some(Modulated::Fm(_)) => 1,
        Some(Modulated::PhaseDistortion) => 2,
        Some(Modulated::Am) => 3,
        Some(Modulated::Ring) => 4,
    }
}

/// 0 off, 1 phase, 2 wave.
#[must_use]
pub fn stage(number: u32) -> u32 {
    match mode(number).stage() {
        Stage::Off => 0,
        Stage::Phase => 1,
        Stage::Wave => 2,
    }
}

#[must_use]
pub fn oversampled(number: u32) -> bool {
    mode(number).oversampled()
}

#[must_use]
pub fn filter(number: u32) -> bool {
    mode(number).filter()
}

#[must_use]
pub fn distortion(number: u32) -> bool {
    mode(number).distortion()
}

/// The source's peak and steepest step over host frames `from..to`.
#[inline]
#[must_use]
pub fn source_span(source: &[f32], n: usize, from: usize, to: usize, lane: usize) -> (f32, f32) {
    super::source_span(source, n, from, to, lane)
}

#[inline]
#[must_use]
pub fn fm_exponential(s: f32) -> f32 {
    super::fm_exponential(s)
}

/// The crate's own shapers and table, made of what a picture is lent.
pub struct Panel {
    shapers: Shapers,
    table: Table,
}

impl Panel {
    /// Amounts are in percent.
    #[must_use]
    pub fn new(
        modes: [u32; SLOTS],
        characters: [f32; SLOTS],
        amounts: [f32; SLOTS],
        lent: &[f32],
        cycle: &[f32],
    ) -> Self {
        Self {
            shapers: Shapers {
                slots: std::array::from_fn(|i| Slot {
                    mode: mode(modes[i]),
                    amount: amounts[i],
                    character: characters[i],
                }),
                curve: curve::lent(lent),
                oversampling: 1,
            },
            table: Table::lent(cycle),
        }
    }

    /// [`Shapers::preview`]: the part of [`preview`] that a clock should
    /// measure.
    pub fn preview(&self, picture: &mut [f32]) {
        self.shapers.preview(&self.table, 0, picture);
    }
}

/// [`Shapers::preview`] over a lent curve and cycle.
pub fn preview(
    modes: [u32; SLOTS],
    characters: [f32; SLOTS],
    amounts: [f32; SLOTS],
    lent: &[f32],
    cycle: &[f32],
    picture: &mut [f32],
) {
    Panel::new(modes, characters, amounts, lent, cycle).preview(picture);
}

/// The numbers of a call that belong to no lane, but for the designs and
/// the range.
#[derive(Clone, Copy, Debug)]
pub struct Settings {
    pub modes: [u32; SLOTS],
    pub characters: [f32; SLOTS],
    /// 1, 2, 4 or 8.
    pub factor: usize,
    /// Lanes in a row.
    pub n: usize,
    /// Active lanes, from lane 0.
    pub active: usize,
    /// The block's host frames.
    pub frames: usize,
    /// The host rate, in whole hertz.
    pub rate: u32,
}

/// What a call is lent to read, slot by slot.
#[derive(Clone, Copy, Debug)]
pub struct Lent<'a> {
    /// The knob plus the lane's offset, in percent.
    pub base: [&'a [f32]; SLOTS],
    pub mods: [&'a [f32]; SLOTS],
    pub sources: [&'a [f32]; SLOTS],
    pub curve: &'a [f32],
}

/// A call's settings with its curve and base in the crate's own types.
pub struct Card<'a> {
    settings: Settings,
    mods: ShaperInputs<'a>,
    shapers: Shapers,
    base: [Box<[f32]>; SLOTS],
}

/// The state that the runs carry.
pub struct State<'a> {
    /// Filter pairs, 4n.
    pub pairs: &'a mut [f32],
    /// FM carry, 2n.
    pub fm: &'a mut [f32],
    /// The last values read, n.
    pub last: &'a mut [f32],
}

impl State<'_> {
    /// For what reads and writes none of it.
    fn none() -> Self {
        Self {
            pairs: &mut [],
            fm: &mut [],
            last: &mut [],
        }
    }

    /// The same cells, lent on.
    pub fn again(&mut self) -> State<'_> {
        State {
            pairs: self.pairs,
            fm: self.fm,
            last: self.last,
        }
    }
}

/// What a run of a range is lent to read besides.
#[derive(Clone, Copy)]
pub struct Rows<'a> {
    /// The cycle's 2,048 samples.
    pub cycle: &'a [f32],
    /// Phase words, by rendered frame of the block.
    pub words: &'a [u32],
    /// Their steps.
    pub steps: &'a [u32],
    /// Slot 1's steepest slopes, by sub-block, as `prepare` leaves them.
    pub inner: &'a [f32],
}

#[allow(clippy::too_many_arguments, reason = "a call's parts, lent one by one")]
impl<'a> Card<'a> {
    /// Sources and modulation are cut to the block's rows, so that the last
    /// of them repeats.
    #[must_use]
    pub fn new(settings: &Settings, lent: &Lent<'a>) -> Self {
        let &Settings { n, frames, .. } = settings;
        let cut = |rows: &'a [f32]| (!rows.is_empty()).then(|| &rows[..frames * n]);
        Self {
            settings: *settings,
            mods: ShaperInputs {
                amount_mod: lent.mods.map(cut),
                sources: lent.sources.map(cut),
            },
            shapers: Shapers {
                slots: std::array::from_fn(|i| Slot {
                    mode: mode(settings.modes[i]),
                    // The knob is summed into the base. -0 + x is x, so the
                    // published `prepare`, which sums, leaves it too.
                    amount: -0.0,
                    character: settings.characters[i],
                }),
                curve: curve::lent(lent.curve),
                oversampling: settings.factor,
            },
            base: lent.base.map(|base| base[..n].into()),
        }
    }

    /// An oscillator of the crate's own kind with these settings, over lent
    /// words and steps and with an empty state.
    #[must_use]
    pub fn oscillator(&self, cycle: &[f32], words: &[u32], steps: &[u32]) -> ShapedOscillator {
        let s = &self.settings;
        let osc = Oscillator::lent(
            Table::lent(cycle),
            words,
            steps,
            s.n,
            s.frames,
            s.rate as f32,
        );
        let mut shaped = ShapedOscillator::new(osc);
        shaped.shapers = self.shapers.clone();
        shaped.offsets = self.base.clone();
        shaped.base = self.base.clone();
        shaped
    }

    /// [`ShapedOscillator::prepare`] alone, on an oscillator made above: the
    /// part of [`prepare`](Self::prepare) that a clock should measure.
    pub fn prepare_in(&self, shaped: &mut ShapedOscillator) {
        let s = &self.settings;
        shaped.prepare(s.frames, s.active, &self.mods, s.factor);
    }

    /// [`ShapedOscillator::prepare`], with the three spans lent.
    pub fn prepare(&self, inner: &mut [f32], stretch: &mut [f32], add: &mut [f32]) {
        let s = &self.settings;
        let mut shaped = self.oscillator(&[0.0; 2048], &[], &[]);
        let rows = s.frames.div_ceil(super::SUB_BLOCK) * s.n;
        shaped.inner[..rows].copy_from_slice(&inner[..rows]);
        shaped.stretch[..rows].copy_from_slice(&stretch[..rows]);
        shaped.add[..rows].copy_from_slice(&add[..rows]);
        self.prepare_in(&mut shaped);
        inner[..rows].copy_from_slice(&shaped.inner[..rows]);
        stretch[..rows].copy_from_slice(&shaped.stretch[..rows]);
        add[..rows].copy_from_slice(&shaped.add[..rows]);
    }

    /// The crate's own render of the whole block over lent words and steps,
    /// from an empty state. It picks its factor by the modes.
    pub fn render(&self, cycle: &[f32], words: &[u32], steps: &[u32], output: &mut [f32]) {
        let s = &self.settings;
        let zeros = vec![0.0; s.n];
        let inputs = Inputs {
            lanes: s.active,
            pitch: &zeros,
            ..Inputs::default()
        };
        self.oscillator(cycle, words, steps)
            .process_scalar(s.frames, &inputs, &self.mods, output);
    }

    /// The stages of a run whose first frame is host frame `first`, at the
    /// host rate × factor, handed to `with`.
    #[inline(always)]
    fn runs<T>(
        &self,
        first: usize,
        [stretch, inner, add]: [&[f32]; 3],
        state: State<'_>,
        with: impl FnOnce(&mut PhaseRun<'_>, &mut WaveRun<'_>) -> T,
    ) -> T {
        let s = &self.settings;
        let mut scratch = [[0.0; osc::LANE_ALIGN]; SLOTS];
        let [scratch_phase, scratch_wave] = &mut scratch;
        let (mut phase, mut wave) = super::runs(
            &self.shapers,
            &self.base,
            &self.mods,
            stretch,
            inner,
            add,
            state.pairs,
            state.fm,
            state.last,
            [scratch_phase, scratch_wave],
            s.n,
            first,
            s.factor,
            s.rate as f32 * s.factor as f32,
        );
        with(&mut phase, &mut wave)
    }

    /// [`Amounts::get`]: slot `slot`'s amount, 0 to 1.
    #[must_use]
    pub fn amount(&self, first: usize, frame: usize, slot: usize, lane: usize) -> f32 {
        self.runs(first, [&[]; 3], State::none(), |phase, _| {
            phase.amounts.get(slot, lane, frame)
        })
    }

    /// [`Amounts::source`]: slot `slot`'s source between its host rows.
    ///
    /// # Panics
    ///
    /// If the slot has none.
    #[must_use]
    pub fn source(&self, first: usize, frame: usize, slot: usize, lane: usize) -> f32 {
        let source = self.mods.sources[slot].expect("a source");
        self.runs(first, [&[]; 3], State::none(), |phase, _| {
            phase.amounts.source(source, frame, lane)
        })
    }

    /// [`PhaseRun::offset_of`]: the words an inter-oscillator slot adds.
    ///
    /// # Panics
    ///
    /// If the slot's mode isn't one.
    #[must_use]
    pub fn offset_of(
        &self,
        first: usize,
        frame: usize,
        slot: usize,
        lane: usize,
        increment: f32,
        state: State<'_>,
    ) -> u32 {
        self.runs(first, [&[]; 3], state, |phase, _| {
            phase.offset_of(slot, lane, frame, increment)
        })
    }

    /// [`PhaseRun::reads_lane`]: the read list of `lane` at rendered frame
    /// `frame`, counted from the range's start at host frame `first`.
    #[must_use]
    pub fn reads_lane(
        &self,
        first: usize,
        frame: usize,
        lane: usize,
        word: u32,
        step: u32,
        inner: &[f32],
        state: State<'_>,
    ) -> LaneReads {
        self.runs(first, [&[], inner, &[]], state, |phase, _| {
            phase.reads_lane(lane, frame, word, step)
        })
    }

    /// [`WaveRun::shape_at_lane`]: `value` shaped.
    #[must_use]
    pub fn shape_at_lane(
        &self,
        first: usize,
        frame: usize,
        lane: usize,
        step: u32,
        value: f32,
        state: State<'_>,
    ) -> f32 {
        self.runs(first, [&[]; 3], state, |_, wave| {
            wave.shape_at_lane(lane, frame, step, value)
        })
    }

    /// [`PhaseRun::stretch`] over rendered frames `asked`, counted from the
    /// range's start at host frame `first`.
    #[must_use]
    pub fn stretch(
        &self,
        first: usize,
        asked: Range<usize>,
        lane: usize,
        step: u32,
        stretch: &[f32],
        add: &[f32],
    ) -> f32 {
        self.runs(first, [stretch, &[], add], State::none(), |phase, _| {
            phase.stretch(lane, asked, step)
        })
    }

    /// The run of host frames `range` of the block: read lists, reads and
    /// shaped samples into `work`, the decimation, and the result copied
    /// to the range's rows of `output`, active lanes only.
    pub fn run(
        &self,
        range: Range<usize>,
        designs: &[Design; 3],
        rows: &Rows<'_>,
        output: &mut [f32],
        work: &mut [f32],
        state: State<'_>,
        decimator: &mut [f32],
    ) {
        let mut kept = Kept::new(designs, self.settings.n, decimator);
        self.run_kept(range, &mut kept, rows, output, work, state);
        kept.state_to(decimator);
    }

    /// [`run`](Self::run) with the decimator's state where the crate has it:
    /// the part of it that a clock should measure.
    pub fn run_kept(
        &self,
        range: Range<usize>,
        decimator: &mut Kept,
        rows: &Rows<'_>,
        output: &mut [f32],
        work: &mut [f32],
        state: State<'_>,
    ) {
        let s = &self.settings;
        let from = range.start * s.factor * s.n;
        let rendered = range.len() * s.factor;
        self.runs(range.start, [&[], rows.inner, &[]], state, |phase, wave| {
            osc::render(
                Wave(rows.cycle),
                &rows.words[from..],
                &rows.steps[from..],
                s.n,
                s.active,
                rendered,
                work,
                phase,
                wave,
            );
        });
        decimator.process(s.factor, s.active, range.len(), work);
        for (k, row) in range.enumerate() {
            output[row * s.n..][..s.active].copy_from_slice(&work[k * s.n..][..s.active]);
        }
    }
}
