//! Decimation by 2, 4 or 8 across lanes, for the shapers that render
//! oversampled: a cascade of polyphase IIR half-band filters.
//!
//! Each stage halves the rate with a half-band low-pass made of two chains
//! of first-order allpass sections in z⁻², one fed the even samples and
//! one the odd, whose outputs are averaged: the elliptic design of
//! Valenzuela and Constantinides (*Digital signal processing schemes for
//! efficient interpolation and decimation*, IEE Proceedings G, 1983). Its
//! phase isn't linear, but its delay is a few samples, where a
//! linear-phase filter as steep would delay the oscillator by tens.
//!
//! The last stage passes up to 0.45 of the output rate and stops from 0.55,
//! 100 dB down: what lies between folds above 0.45 of the rate, outside
//! the band the shapers' aliasing is measured in (below 20 kHz at 44.1 kHz
//! and up). Earlier stages only have to keep their images out of that
//! band, so they have wider transitions and fewer sections.
//!
//! Every stage uses separately rounded multiplies and adds, so the scalar
//! path and every SIMD level give the same bits.

use lspk_dsp::simd::{self, F32s, Kernel, Level};

/// The most allpass coefficients a stage has.
pub(crate) const MAX_COEFS: usize = 12;

/// The most stages: decimation by 8.
pub(crate) const MAX_STAGES: usize = 3;

/// The stopband attenuation every stage is designed for, in dB.
pub(crate) const ATTENUATION_DB: f64 = 100.0;

/// The last stage's half-width of transition, as a fraction of its input
/// rate: pass to 0.45 and stop from 0.55 of the output rate.
const LAST_TRANSITION: f64 = 0.025;

/// One stage's allpass coefficients, the first to the path fed the later
/// sample of each pair, then alternating.
#[derive(Clone, Copy, Debug, PartialEq)]
pub(crate) struct Design {
    pub coefs: [f32; MAX_COEFS],
    pub count: usize,
}

/// The half-width of transition, as a fraction of its input rate, of the
/// stage `from_last` stages before the last (0 for the last): wide enough
/// that what it lets through folds outside 0.55 of the final rate.
pub(crate) fn transition(from_last: usize) -> f64 {
    if from_last == 0 {
        LAST_TRANSITION
    } else {
        // The stage's output rate is 2^from_last of the final rate; it must
        // pass to 0.55 of the final rate.
        0.25 - 0.275 / f64::from(1u32 << from_last)
    }
}

/// The elliptic half-band design with half-width of transition
/// `transition` (a fraction of the input rate, below ¼) and at least
/// `attenuation` dB of stopband, with as few coefficients as reach it (at
/// most [`MAX_COEFS`]).
pub(crate) fn design(transition: f64, attenuation: f64) -> Design {
    let (k, q) = transition_parameters(transition);
    let order = order_for(attenuation, q).min(2 * MAX_COEFS + 1);
    let count = (order - 1) / 2;
    let mut coefs = [0.0f32; MAX_COEFS];
    for (i, coef) in coefs.iter_mut().enumerate().take(count) {
        *coef = coefficient(i, k, q, order) as f32;
    }
    Design { coefs, count }
}

/// The selectivity `k` and nome `q` of the elliptic design for a
/// half-width of transition `transition`.
fn transition_parameters(transition: f64) -> (f64, f64) {
    let k = ((1.0 - 2.0 * transition) * std::f64::consts::FRAC_PI_4).tan();
    let k = k * k;
    let root = (1.0 - k * k).powf(0.25);
    let e = 0.5 * (1.0 - root) / (1.0 + root);
    let e4 = e.powi(4);
    let q = e * (1.0 + e4 * (2.0 + e4 * (15.0 + 150.0 * e4)));
    (k, q)
}

/// The odd filter order that reaches `attenuation` dB with nome `q`.
fn order_for(attenuation: f64, q: f64) -> usize {
    let power = 10f64.powf(-attenuation / 10.0);
    let a = power / (1.0 - power);
    let mut order = ((a * a / 16.0).ln() / q.ln()).ceil() as usize;
    if order.is_multiple_of(2) {
        order += 1;
    }
    order.max(3)
}

/// Allpass coefficient `index` of the design.
fn coefficient(index: usize, k: f64, q: f64, order: usize) -> f64 {
    let c = (index + 1) as f64;
    let order = order as f64;
    let pi = std::f64::consts::PI;
    // The theta functions' series, summed until their terms vanish.
    let mut numerator = 0.0;
    let mut i = 0.0f64;
    let mut sign = 1.0;
    loop {
        let term = q.powf(i * (i + 1.0)) * ((2.0 * i + 1.0) * c * pi / order).sin() * sign;
        numerator += term;
        if term.abs() < 1e-100 {
            break;
        }
        sign = -sign;
        i += 1.0;
    }
    let mut denominator = 0.0;
    let mut i = 1.0f64;
    let mut sign = -1.0;
    loop {
        let term = q.powf(i * i) * (2.0 * i * c * pi / order).cos() * sign;
        denominator += term;
        if term.abs() < 1e-100 {
            break;
        }
        sign = -sign;
        i += 1.0;
    }
    let w = numerator * q.powf(0.25) / (denominator + 0.5);
    let w2 = w * w;
    let x = ((1.0 - w2 * k) * (1.0 - w2 / k)).sqrt() / (1.0 + w2);
    (1.0 - x) / (1.0 + x)
}

/// The decimator for every lane: each stage's design and its sections'
/// state.
#[derive(Debug)]
pub(crate) struct Decimator {
    /// Indexed by how many stages before the last.
    designs: [Design; MAX_STAGES],
    lane_count: usize,
    /// Per stage (from the last), per coefficient, the last input and
    /// output of each lane: `[stage][coef][x or y][lane]`.
    state: Box<[f32]>,
}

impl Decimator {
    /// A decimator for `lane_count` lanes. Allocates.
    pub(crate) fn new(lane_count: usize) -> Self {
        Self {
            designs: std::array::from_fn(|j| design(transition(j), ATTENUATION_DB)),
            lane_count,
            state: vec![0.0; MAX_STAGES * MAX_COEFS * 2 * lane_count].into(),
        }
    }

    /// Memory it holds itself, in bytes.
    pub(crate) fn bytes(&self) -> usize {
        std::mem::size_of::<Self>() + std::mem::size_of_val(&*self.state)
    }

    /// Clears lanes `lanes`' state.
    pub(crate) fn reset(&mut self, lanes: std::ops::Range<usize>) {
        let n = self.lane_count;
        for block in self.state.chunks_exact_mut(n) {
            block[lanes.clone()].fill(0.0);
        }
    }

    /// Decimates `buffer` in place by `factor` (1, 2, 4 or 8): it holds
    /// `frames × factor` frames of `lane_count` lanes, frame by frame, and
    /// afterwards its first `frames` frames are the result. Lanes from
    /// `lanes` on are left alone. At SIMD level `level`, or one lane at a
    /// time with `None`.
    pub(crate) fn process(
        &mut self,
        level: Option<Level>,
        factor: usize,
        buffer: &mut [f32],
        frames: usize,
        lanes: usize,
    ) {
        let stages = factor.trailing_zeros() as usize;
        let n = self.lane_count;
        let block = MAX_COEFS * 2 * n;
        for s in 0..stages {
            let from_last = stages - 1 - s;
            let out_frames = frames << from_last;
            let stage = Stage {
                design: &self.designs[from_last],
                state: &mut self.state[from_last * block..(from_last + 1) * block],
                buffer: &mut *buffer,
                frames: out_frames,
                lane_count: n,
                lanes,
            };
            match level {
                Some(level) => {
                    if let Err(stage) = simd::dispatch_at(level, stage) {
                        let _ = simd::dispatch_at(Level::Portable, stage);
                    }
                }
                None => stage.scalar(),
            }
        }
    }
}

/// One stage over every lane, in place.
struct Stage<'a> {
    design: &'a Design,
    state: &'a mut [f32],
    buffer: &'a mut [f32],
    /// Output frames.
    frames: usize,
    lane_count: usize,
    lanes: usize,
}

impl Stage<'_> {
    fn scalar(self) {
        let n = self.lane_count;
        let count = self.design.count;
        let coefs = &self.design.coefs;
        for l in 0..self.lanes {
            let mut x = [0.0f32; MAX_COEFS];
            let mut y = [0.0f32; MAX_COEFS];
            for i in 0..count {
                x[i] = self.state[(2 * i) * n + l];
                y[i] = self.state[(2 * i + 1) * n + l];
            }
            for k in 0..self.frames {
                let early = self.buffer[2 * k * n + l];
                let late = self.buffer[(2 * k + 1) * n + l];
                let mut paths = [late, early];
                for i in 0..count {
                    let input = paths[i % 2];
                    let output = (input - y[i]) * coefs[i] + x[i];
                    x[i] = input;
                    y[i] = output;
                    paths[i % 2] = output;
                }
                self.buffer[k * n + l] = (paths[0] + paths[1]) * 0.5;
            }
            for i in 0..count {
                self.state[(2 * i) * n + l] = x[i];
                self.state[(2 * i + 1) * n + l] = y[i];
            }
        }
    }
}

impl Kernel for Stage<'_> {
    type Output = ();

    #[inline(always)]
    fn run<S: F32s>(self) {
        let n = self.lane_count;
        let count = self.design.count;
        let coefs: [S; MAX_COEFS] = std::array::from_fn(|i| S::splat(self.design.coefs[i]));
        let span = self.lanes.div_ceil(S::LANES) * S::LANES;
        for c in (0..span).step_by(S::LANES) {
            let mut x = [S::splat(0.0); MAX_COEFS];
            let mut y = [S::splat(0.0); MAX_COEFS];
            for i in 0..count {
                x[i] = S::load(&self.state[(2 * i) * n + c..]);
                y[i] = S::load(&self.state[(2 * i + 1) * n + c..]);
            }
            for k in 0..self.frames {
                let early = S::load(&self.buffer[2 * k * n + c..]);
                let late = S::load(&self.buffer[(2 * k + 1) * n + c..]);
                let mut paths = [late, early];
                for i in 0..count {
                    let input = paths[i % 2];
                    let output = (input - y[i]) * coefs[i] + x[i];
                    x[i] = input;
                    y[i] = output;
                    paths[i % 2] = output;
                }
                ((paths[0] + paths[1]) * S::splat(0.5)).store(&mut self.buffer[k * n + c..]);
            }
            for i in 0..count {
                x[i].store(&mut self.state[(2 * i) * n + c..]);
                y[i].store(&mut self.state[(2 * i + 1) * n + c..]);
            }
        }
    }
}


// opened: the tests' way to what is private here.
#[path = "../../../open/halfband.rs"]
pub mod open;
