//! Stands in for the crate's oscillator and table: what the shaper names of
//! osc/mod.rs, its text as published from [`SUB_BLOCK`] to [`Bypass`], and
//! an [`Oscillator`] that renders lent phase words through the two stages.

use lspk_dsp::simd::{F32s, Level as SimdLevel};

mod oscillator;
mod table;

pub use oscillator::{Oscillator, read, render};
pub use table::{CYCLE, Table, Wave};

/// How many frames a lane keeps its mipmap level for, and how long its
/// crossfade to a new level lasts: 0.67 ms at 48 kHz.
pub const SUB_BLOCK: usize = 32;

/// Every per-lane array's length is a multiple of this: the widest SIMD
/// vector `lspk-dsp` dispatches.
pub const LANE_ALIGN: usize = 16;

/// How a voice starts a note, as the voice manager reports it. With
/// [`Params::phase_legato`] off, a fresh voice and a polyphonic legato
/// join restart the phase and the rest carry on (engine-core R18); Phase
/// legato inverts the steal and the join.
#[derive(Clone, Copy, Debug, PartialEq, Eq, Hash)]
pub enum Onset {
    /// From silence: a free voice.
    Fresh,
    /// A sounding voice taken for a new note, legato off.
    Steal,
    /// Mono without legato: the sounding voice re-pitched and retriggered.
    /// Treated as a steal.
    Retrigger,
    /// Mono legato: the sounding voice re-pitched without a retrigger; its
    /// phase always carries on.
    Legato,
    /// Polyphonic legato: a new voice joining a held note.
    Join,
}

impl Onset {
    /// Whether this onset restarts the phase, with Phase legato `inverted`.
    #[must_use]
    pub const fn restarts(self, inverted: bool) -> bool {
        match self {
            Self::Fresh => true,
            Self::Steal | Self::Retrigger => inverted,
            Self::Join => !inverted,
            Self::Legato => false,
        }
    }
}

/// What a render reads for each lane. Pitches are MIDI note numbers in
/// semitones (69 is A4 at [`Params::reference`]), as the kit's voice block
/// gives them, with glide, bend and expression; Octave, Semitone, Fine and
/// Sweep are added here.
#[derive(Clone, Copy, Debug, Default)]
pub struct Inputs<'a> {
    /// Lanes to render, from lane 0: at most [`Oscillator::lane_count`].
    /// Rounded up to a whole vector.
    pub lanes: usize,
    /// Each lane's pitch at the first frame.
    pub pitch: &'a [f32],
    /// How far each lane's pitch moves per frame (glide), if it moves.
    pub pitch_step: Option<&'a [f32]>,
    /// Pitch modulation at audio rate, in semitones, frame by frame
    /// (`frames × lane_count` values).
    pub pitch_mod: Option<&'a [f32]>,
    /// Frame modulation, in frames, frame by frame (`frames ×
    /// lane_count` values).
    pub frame_mod: Option<&'a [f32]>,
}

/// The most table reads a [`PhaseStage`] asks for at one frame.
pub const MAX_READS: usize = 4;

/// What a [`PhaseStage`] has a vector of lanes read at one frame: the sum
/// of up to [`MAX_READS`] reads of the table, each at its own phase and
/// weighted by its own gain. Shapers use more than one read to crossfade
/// between two branches of a phase map (a sync reset, a pulse's edge) or
/// to mix a wave with itself half a cycle on.
#[derive(Clone, Copy, Debug)]
pub struct Reads<S: F32s> {
    /// Where each read is, per lane.
    pub phase: [S::U32s; MAX_READS],
    /// Each read's gain, per lane.
    pub gain: [S; MAX_READS],
    /// How many reads to sum, from 1 to [`MAX_READS`]; 0 means one read at
    /// `phase[0]` with no gain applied.
    pub count: usize,
}

impl<S: F32s> Reads<S> {
    /// One read at `phase`, unweighted.
    #[inline(always)]
    #[must_use]
    pub fn one(phase: S::U32s) -> Self {
        Self {
            phase: [phase; MAX_READS],
            gain: [S::splat(1.0); MAX_READS],
            count: 0,
        }
    }
}

/// [`Reads`] for one lane, for the scalar path.
#[derive(Clone, Copy, Debug, PartialEq)]
pub struct LaneReads {
    /// Where each read is.
    pub phase: [u32; MAX_READS],
    /// Each read's gain.
    pub gain: [f32; MAX_READS],
    /// How many reads to sum; 0 means one read at `phase[0]`, unweighted.
    pub count: usize,
}

impl LaneReads {
    /// One read at `phase`, unweighted.
    #[must_use]
    pub const fn one(phase: u32) -> Self {
        Self {
            phase: [phase; MAX_READS],
            gain: [1.0; MAX_READS],
            count: 0,
        }
    }
}

/// A stage that bends each lane's phase before the table is read: where
/// R1.4's phase shapers (sync, bend, pulse width, mirror, remaps) plug in.
///
/// Mark the methods `#[inline(always)]`, so each SIMD level's kernel
/// compiles them with its own instructions.
pub trait PhaseStage {
    /// The phase to read lanes `lanes..lanes + S::LANES` at, at frame
    /// `frame`, from their running `phase` and its `increment` per frame
    /// ([`CYCLE`](crate::CYCLE) is a whole cycle).
    fn shape<S: F32s>(
        &mut self,
        lanes: usize,
        frame: usize,
        phase: S::U32s,
        increment: S::U32s,
    ) -> S::U32s;

    /// The same for lane `lane` alone, for the scalar path.
    fn shape_lane(&mut self, lane: usize, frame: usize, phase: u32, increment: u32) -> u32;

    /// The reads lanes `lanes..lanes + S::LANES` sum at frame `frame`: by
    /// default one, at [`shape`](Self::shape)'s phase.
    #[inline(always)]
    fn reads<S: F32s>(
        &mut self,
        lanes: usize,
        frame: usize,
        phase: S::U32s,
        increment: S::U32s,
    ) -> Reads<S> {
        Reads::one(self.shape::<S>(lanes, frame, phase, increment))
    }

    /// The same for lane `lane` alone, for the scalar path.
    #[inline(always)]
    fn reads_lane(&mut self, lane: usize, frame: usize, phase: u32, increment: u32) -> LaneReads {
        LaneReads::one(self.shape_lane(lane, frame, phase, increment))
    }

    /// How many times faster than its running phase lane `lane` reads the
    /// table at most over frames `frames` of this render, whose phase
    /// `increment` per frame is `increment`: the stage's steepest slope.
    /// The lane picks its mipmap level for `increment` times this, so a
    /// stage that reads faster than the note still reads a level whose
    /// harmonics stay below Nyquist. A stage that reads a source at audio
    /// rate may add to the increment, in the same words a frame; by
    /// default the increment is ignored and the slope is 1.
    #[inline(always)]
    fn stretch(&mut self, lane: usize, frames: std::ops::Range<usize>, increment: u32) -> f32 {
        let _ = (lane, frames, increment);
        1.0
    }
}

/// A stage that bends each lane's value after the read, before Level: where
/// R1.4's distortion and filter shapers plug in.
///
/// Mark the methods `#[inline(always)]`, as for [`PhaseStage`].
pub trait WaveStage {
    /// Lanes `lanes..lanes + S::LANES`'s value at frame `frame`, shaped.
    fn shape<S: F32s>(&mut self, lanes: usize, frame: usize, value: S) -> S;

    /// The same for lane `lane` alone, for the scalar path.
    fn shape_lane(&mut self, lane: usize, frame: usize, value: f32) -> f32;

    /// [`shape`](Self::shape), also told the lanes' phase `increment` per
    /// frame, for a stage that follows the note's pitch (a filter whose
    /// cutoff is a harmonic of the note). By default the increment is
    /// ignored.
    #[inline(always)]
    fn shape_at<S: F32s>(&mut self, lanes: usize, frame: usize, increment: S::U32s, value: S) -> S {
        let _ = increment;
        self.shape::<S>(lanes, frame, value)
    }

    /// The same for lane `lane` alone, for the scalar path.
    #[inline(always)]
    fn shape_at_lane(&mut self, lane: usize, frame: usize, increment: u32, value: f32) -> f32 {
        let _ = increment;
        self.shape_lane(lane, frame, value)
    }
}

/// A stage that changes nothing, for either hook.
#[derive(Clone, Copy, Debug, Default)]
pub struct Bypass;

impl PhaseStage for Bypass {
    #[inline(always)]
    fn shape<S: F32s>(&mut self, _: usize, _: usize, phase: S::U32s, _: S::U32s) -> S::U32s {
        phase
    }

    #[inline(always)]
    fn shape_lane(&mut self, _: usize, _: usize, phase: u32, _: u32) -> u32 {
        phase
    }
}

impl WaveStage for Bypass {
    #[inline(always)]
    fn shape<S: F32s>(&mut self, _: usize, _: usize, value: S) -> S {
        value
    }

    #[inline(always)]
    fn shape_lane(&mut self, _: usize, _: usize, value: f32) -> f32 {
        value
    }
}
