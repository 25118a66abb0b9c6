//! The oscillator's render, one lane at a time, over lent phase words and
//! steps: no pitch, no mipmap levels, no Level. The crate's own loop
//! (osc/scalar.rs) isn't published; this one does what document 01 says.

use super::{Bypass, Inputs, LaneReads, Onset, PhaseStage, SimdLevel, Table, Wave, WaveStage};

/// The sum of a list's reads: count 0 reads the first word with no gain,
/// otherwise the products add up in list order from the first.
#[inline(always)]
#[must_use]
pub fn read(wave: Wave<'_>, reads: &LaneReads) -> f32 {
    if reads.count == 0 {
        return wave.read(reads.phase[0]);
    }
    let mut sum = reads.gain[0] * wave.read(reads.phase[0]);
    for r in 1..reads.count {
        sum += reads.gain[r] * wave.read(reads.phase[r]);
    }
    sum
}

/// Renders `frames` frames of the first `lanes` of `n` lanes into `out`:
/// for each frame and then each lane a read list, the sum of its reads and
/// the shaped sample.
#[expect(
    clippy::too_many_arguments,
    reason = "an oscillator's parts, lent one by one"
)]
pub fn render<P: PhaseStage, W: WaveStage>(
    wave: Wave<'_>,
    words: &[u32],
    steps: &[u32],
    n: usize,
    lanes: usize,
    frames: usize,
    out: &mut [f32],
    phase_stage: &mut P,
    wave_stage: &mut W,
) {
    for frame in 0..frames {
        for lane in 0..lanes {
            let at = frame * n + lane;
            let reads = phase_stage.reads_lane(lane, frame, words[at], steps[at]);
            let value = read(wave, &reads);
            out[at] = wave_stage.shape_at_lane(lane, frame, steps[at], value);
        }
    }
}

/// Lanes of lent phase words and steps, one row a rendered frame, reading
/// one lent cycle.
#[derive(Debug)]
pub struct Oscillator {
    table: Table,
    words: Box<[u32]>,
    steps: Box<[u32]>,
    lane_count: usize,
    max_frames: usize,
    sample_rate: f32,
    /// The row the next render starts at.
    row: usize,
}

impl Oscillator {
    /// An oscillator of `lane_count` lanes that will render the rows of
    /// `words` and `steps` in order, up to `max_frames` frames a call.
    #[must_use]
    pub fn lent(
        table: Table,
        words: &[u32],
        steps: &[u32],
        lane_count: usize,
        max_frames: usize,
        sample_rate: f32,
    ) -> Self {
        Self {
            table,
            words: words.into(),
            steps: steps.into(),
            lane_count,
            max_frames,
            sample_rate,
            row: 0,
        }
    }

    #[must_use]
    pub fn sample_rate(&self) -> f32 {
        self.sample_rate
    }

    pub fn set_sample_rate(&mut self, sample_rate: f32) {
        self.sample_rate = sample_rate;
    }

    #[must_use]
    pub fn lane_count(&self) -> usize {
        self.lane_count
    }

    #[must_use]
    pub fn max_frames(&self) -> usize {
        self.max_frames
    }

    /// The lanes voice `voice` owns: one each.
    #[must_use]
    pub fn lanes_of(&self, voice: usize) -> std::ops::Range<usize> {
        voice..voice + 1
    }

    /// The words are lent, so a start changes nothing.
    pub fn start(&mut self, _voice: usize, _key: f32, _onset: Onset) {}

    #[must_use]
    pub fn bytes(&self) -> usize {
        0
    }

    pub fn process_at(
        &mut self,
        _: SimdLevel,
        frames: usize,
        inputs: &Inputs<'_>,
        out: &mut [f32],
    ) {
        self.process_scalar(frames, inputs, out);
    }

    pub fn process_with<P: PhaseStage, W: WaveStage>(
        &mut self,
        _: SimdLevel,
        frames: usize,
        inputs: &Inputs<'_>,
        out: &mut [f32],
        phase_stage: &mut P,
        wave_stage: &mut W,
    ) {
        self.process_scalar_with(frames, inputs, out, phase_stage, wave_stage);
    }

    pub fn process_scalar(&mut self, frames: usize, inputs: &Inputs<'_>, out: &mut [f32]) {
        self.process_scalar_with(frames, inputs, out, &mut Bypass, &mut Bypass);
    }

    pub fn process_scalar_with<P: PhaseStage, W: WaveStage>(
        &mut self,
        frames: usize,
        inputs: &Inputs<'_>,
        out: &mut [f32],
        phase_stage: &mut P,
        wave_stage: &mut W,
    ) {
        let rows = self.row * self.lane_count..;
        render(
            self.table.wave(0, 0),
            &self.words[rows.clone()],
            &self.steps[rows],
            self.lane_count,
            inputs.lanes,
            frames,
            out,
            phase_stage,
            wave_stage,
        );
        self.row += frames;
    }
}
