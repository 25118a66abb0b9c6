//! The proved library's exports for tests (crate `probe`).

use crate::card::Valued;
use programs::singles::{Call, Slices};

/// The sine and arctangent numbers.
#[repr(C)]
#[derive(Clone, Copy)]
pub struct Numbers {
    pub sin: [f32; 5],
    pub atan: [f32; 8],
}

/// The oracle's numbers.
pub const NUMBERS: Numbers = Numbers {
    sin: ruled::api::lanes::SIN,
    atan: ruled::api::lanes::ATAN,
};

#[repr(C)]
#[derive(Clone, Copy)]
pub struct Parts {
    pub exponent: f32,
    pub mantissa: f32,
}

/// 0 and a value, or a refusal's number and 0.
#[repr(C)]
#[derive(Clone, Copy)]
pub struct Answer {
    pub number: u32,
    pub value: f32,
}

/// Two slots' modes, characters and amounts.
#[repr(C)]
#[derive(Clone, Copy)]
pub struct Slots {
    pub mode0: u32,
    pub mode1: u32,
    pub character0: f32,
    pub character1: f32,
    pub amount0: f32,
    pub amount1: f32,
}

/// A read list as it goes out.
#[repr(C)]
#[derive(Clone, Copy)]
pub struct LaneReads {
    pub phase: [u32; 4],
    pub gain: [f32; 4],
    pub count: usize,
}

/// A read list with its call's number and frames; after a refusal only zeros.
#[repr(C)]
#[derive(Clone, Copy)]
pub struct ReadsAnswer {
    pub number: u32,
    pub frames: u32,
    pub reads: LaneReads,
}

/// A slot's two states.
#[repr(C)]
#[derive(Clone, Copy, Debug)]
pub struct Svf {
    pub ic1: f32,
    pub ic2: f32,
}

/// A shaped sample and the state after it.
#[repr(C)]
#[derive(Clone, Copy, Debug)]
pub struct Filtered {
    pub state: Svf,
    pub y: f32,
}

unsafe extern "C" {
    pub safe fn probe_abs(x: f32) -> f32;
    pub safe fn probe_sqrt(x: f32) -> f32;
    pub safe fn probe_floor(x: f32) -> f32;
    pub safe fn probe_sign_bit(x: f32) -> f32;
    pub safe fn probe_above(x: f32) -> f32;
    pub safe fn probe_sign(x: f32) -> f32;
    pub safe fn probe_smoothstep(x: f32) -> f32;
    pub safe fn probe_ln(x: f32) -> f32;
    pub safe fn probe_any(x: f32) -> u32;
    pub safe fn probe_cast_word(x: f32) -> u32;
    pub safe fn probe_cast_usize(x: f32) -> usize;
    pub safe fn probe_nearest_u32(n: u32) -> f32;
    pub safe fn probe_nearest_i32(n: u32) -> f32;
    pub safe fn probe_to_word(x: f32) -> u32;
    pub safe fn probe_signed(word: u32) -> f32;
    pub safe fn probe_add_words(a: u32, b: u32) -> u32;
    pub safe fn probe_pick_word(mask: f32, a: u32, b: u32) -> u32;
    pub safe fn probe_min(x: f32, other: f32) -> f32;
    pub safe fn probe_max(x: f32, other: f32) -> f32;
    pub safe fn probe_mul_add(x: f32, mul: f32, add: f32) -> f32;
    pub safe fn probe_pick(mask: f32, a: f32, b: f32) -> f32;
    pub safe fn probe_clamp(x: f32, lo: f32, hi: f32) -> f32;
    pub safe fn probe_sin_cycles(numbers: Numbers, x: f32) -> f32;
    pub safe fn probe_cos_cycles(numbers: Numbers, x: f32) -> f32;
    pub safe fn probe_atan(numbers: Numbers, x: f32) -> f32;
    pub safe fn probe_tan(numbers: Numbers, x: f32) -> f32;
    pub safe fn probe_split(x: f32) -> Parts;
    pub safe fn probe_source(mode: u32) -> u32;
    pub safe fn probe_fm_type(mode: u32) -> u32;
    pub safe fn probe_modulated(mode: u32) -> u32;
    pub safe fn probe_stage(mode: u32) -> u32;
    pub safe fn probe_oversampled(mode: u32) -> u32;
    pub safe fn probe_distortion(mode: u32) -> u32;
    pub safe fn probe_stretch(mode: u32, amount: f32, curve: f32) -> Answer;
    pub safe fn probe_fm_exponential(s: f32) -> f32;
    pub safe fn probe_wave_curve(numbers: Numbers, mode: u32, x: f32) -> f32;
    pub safe fn probe_wave_integral(numbers: Numbers, mode: u32, x: f32) -> f32;
    pub safe fn probe_distort(numbers: Numbers, mode: u32, a: f32, x: f32) -> f32;
    pub safe fn probe_drive(mode: u32, a: f32) -> f32;
    pub safe fn probe_cutoff_harmonic(mode: u32, a: f32) -> f32;
    pub safe fn probe_damping(character: f32) -> f32;
    pub safe fn probe_filter(
        numbers: Numbers,
        mode: u32,
        harmonic: f32,
        increment: f32,
        k: f32,
        x: f32,
        state: Svf,
    ) -> Filtered;
    pub safe fn probe_distort_smooth(numbers: Numbers, mode: u32, a: f32, x: f32, state: Svf) -> Filtered;
    pub safe fn probe_shape(
        numbers: Numbers,
        mode: u32,
        a: f32,
        character: f32,
        sourced: u32,
        source: f32,
        increment: f32,
        x: f32,
        state: Svf,
    ) -> Filtered;
    fn probe_shape_run(
        numbers: Numbers,
        mode: u32,
        a: f32,
        character: f32,
        sourced: u32,
        source: f32,
        increment: f32,
        xs: *const f32,
        xs_len: usize,
        out: *mut f32,
        out_len: usize,
        state: *mut f32,
        state_len: usize,
    ) -> usize;
    fn probe_lookup(table: *const f32, len: usize, x: f32) -> f32;
    fn probe_powers_run(
        leaf: u32,
        xs: *const f32,
        xs_len: usize,
        out: *mut f32,
        out_len: usize,
    ) -> usize;
    fn probe_curve_value(curve: *const f32, len: usize, x: f32) -> Answer;
    fn probe_curve_steepest(curve: *const f32, len: usize) -> Answer;
    fn probe_apply(
        numbers: Numbers,
        curve: *const f32,
        curve_len: usize,
        slots: Slots,
        half: f32,
        inner: f32,
        word: u32,
    ) -> LaneReads;
    fn probe_reads_run(
        numbers: Numbers,
        curve: *const f32,
        curve_len: usize,
        cycle: *const f32,
        cycle_len: usize,
        slots: Slots,
        half: f32,
        inner: f32,
        words: *const u32,
        words_len: usize,
        out: *mut f32,
        out_len: usize,
    ) -> usize;
    fn probe_reads_lane(
        mode0: u32,
        mode1: u32,
        character0: f32,
        character1: f32,
        factor: u32,
        lanes: u32,
        active: u32,
        lane: u32,
        frames: u32,
        first: u32,
        count: u32,
        frame: u32,
        rate: u32,
        word: u32,
        step: u32,
        numbers: Numbers,
        base0: *const f32,
        base0_len: usize,
        base1: *const f32,
        base1_len: usize,
        mod0: *const f32,
        mod0_len: usize,
        mod1: *const f32,
        mod1_len: usize,
        source0: *const f32,
        source0_len: usize,
        source1: *const f32,
        source1_len: usize,
        curve: *const f32,
        curve_len: usize,
        inner: *const f32,
        inner_len: usize,
        fm: *mut f32,
        fm_len: usize,
        last: *const f32,
        last_len: usize,
    ) -> ReadsAnswer;
    fn probe_shape_at_lane(
        mode0: u32,
        mode1: u32,
        character0: f32,
        character1: f32,
        factor: u32,
        lanes: u32,
        active: u32,
        lane: u32,
        frames: u32,
        first: u32,
        count: u32,
        frame: u32,
        step: u32,
        x: f32,
        numbers: Numbers,
        base0: *const f32,
        base0_len: usize,
        base1: *const f32,
        base1_len: usize,
        mod0: *const f32,
        mod0_len: usize,
        mod1: *const f32,
        mod1_len: usize,
        source0: *const f32,
        source0_len: usize,
        source1: *const f32,
        source1_len: usize,
        pairs: *mut f32,
        pairs_len: usize,
        last: *mut f32,
        last_len: usize,
    ) -> Valued;
}

pub fn lookup(table: &[f32], x: f32) -> f32 {
    // SAFETY: the pointer and the count are the slice's.
    unsafe { probe_lookup(table.as_ptr(), table.len(), x) }
}

/// exp2, tanh, exp and `ln_cosh`, by number 0 to 3, at each of `xs`.
pub fn powers_run(leaf: u32, xs: &[f32], out: &mut [f32]) -> usize {
    // SAFETY: the pointers and counts are the slices', which do not overlap.
    unsafe { probe_powers_run(leaf, xs.as_ptr(), xs.len(), out.as_mut_ptr(), out.len()) }
}

pub fn curve_value(curve: &[f32], x: f32) -> Answer {
    // SAFETY: the pointer and the count are the slice's.
    unsafe { probe_curve_value(curve.as_ptr(), curve.len(), x) }
}

pub fn curve_steepest(curve: &[f32]) -> Answer {
    // SAFETY: the pointer and the count are the slice's.
    unsafe { probe_curve_steepest(curve.as_ptr(), curve.len()) }
}

/// The read list of two slots, slot 1 first, slot 0 with half width times `inner`.
pub fn apply(curve: &[f32], slots: Slots, half: f32, inner: f32, word: u32) -> LaneReads {
    // SAFETY: the pointer and the count are the slice's.
    unsafe { probe_apply(NUMBERS, curve.as_ptr(), curve.len(), slots, half, inner, word) }
}

/// The sum of that list's reads of the cycle at each of `words`.
pub fn reads_run(curve: &[f32], cycle: &[f32], slots: Slots, half: f32, inner: f32, words: &[u32], out: &mut [f32]) -> usize {
    // SAFETY: the pointers and counts are the slices', of which `out` overlaps none.
    unsafe {
        probe_reads_run(
            NUMBERS,
            curve.as_ptr(),
            curve.len(),
            cycle.as_ptr(),
            cycle.len(),
            slots,
            half,
            inner,
            words.as_ptr(),
            words.len(),
            out.as_mut_ptr(),
            out.len(),
        )
    }
}

/// A slot's mode and what it shapes every sample of a run with.
#[derive(Clone, Copy)]
pub struct WaveSlot {
    pub mode: u32,
    pub amount: f32,
    pub character: f32,
    /// `None` for a slot without a source.
    pub source: Option<f32>,
    pub increment: f32,
}

/// `x` shaped by the slot.
pub fn shape(slot: &WaveSlot, x: f32, state: Svf) -> Filtered {
    let sourced = u32::from(slot.source.is_some());
    let source = slot.source.unwrap_or(f32::NAN);
    probe_shape(NUMBERS, slot.mode, slot.amount, slot.character, sourced, source, slot.increment, x, state)
}

/// Each of `xs` shaped by the slot, its state in the first two cells of `state`.
pub fn shape_run(slot: &WaveSlot, xs: &[f32], out: &mut [f32], state: &mut [f32]) -> usize {
    // SAFETY: the pointers and counts are the slices', which do not overlap.
    unsafe {
        probe_shape_run(
            NUMBERS,
            slot.mode,
            slot.amount,
            slot.character,
            u32::from(slot.source.is_some()),
            slot.source.unwrap_or(f32::NAN),
            slot.increment,
            xs.as_ptr(),
            xs.len(),
            out.as_mut_ptr(),
            out.len(),
            state.as_mut_ptr(),
            state.len(),
        )
    }
}

/// The read list of a lane at a rendered frame.
pub fn reads_lane(call: &Call, lent: Slices<'_>) -> ReadsAnswer {
    let Slices { lent: read, inner, fm, last, .. } = lent;
    // SAFETY: the pointers and counts are the slices', of which `fm` overlaps none.
    unsafe {
        probe_reads_lane(
            call.modes[0],
            call.modes[1],
            call.characters[0],
            call.characters[1],
            call.factor,
            call.lanes,
            call.active,
            call.lane,
            call.frames,
            call.first,
            call.count,
            call.frame,
            call.rate,
            call.word,
            call.step,
            NUMBERS,
            read.base[0].as_ptr(),
            read.base[0].len(),
            read.base[1].as_ptr(),
            read.base[1].len(),
            read.mods[0].as_ptr(),
            read.mods[0].len(),
            read.mods[1].as_ptr(),
            read.mods[1].len(),
            read.sources[0].as_ptr(),
            read.sources[0].len(),
            read.sources[1].as_ptr(),
            read.sources[1].len(),
            read.curve.as_ptr(),
            read.curve.len(),
            inner.as_ptr(),
            inner.len(),
            fm.as_mut_ptr(),
            fm.len(),
            last.as_ptr(),
            last.len(),
        )
    }
}

/// The sample of a lane at a rendered frame, shaped.
pub fn shape_at_lane(call: &Call, lent: Slices<'_>) -> Valued {
    let Slices { lent: read, pairs, last, .. } = lent;
    // SAFETY: the pointers and counts are the slices', of which the written ones overlap none.
    unsafe {
        probe_shape_at_lane(
            call.modes[0],
            call.modes[1],
            call.characters[0],
            call.characters[1],
            call.factor,
            call.lanes,
            call.active,
            call.lane,
            call.frames,
            call.first,
            call.count,
            call.frame,
            call.step,
            call.x,
            NUMBERS,
            read.base[0].as_ptr(),
            read.base[0].len(),
            read.base[1].as_ptr(),
            read.base[1].len(),
            read.mods[0].as_ptr(),
            read.mods[0].len(),
            read.mods[1].as_ptr(),
            read.mods[1].len(),
            read.sources[0].as_ptr(),
            read.sources[0].len(),
            read.sources[1].as_ptr(),
            read.sources[1].len(),
            pairs.as_mut_ptr(),
            pairs.len(),
            last.as_mut_ptr(),
            last.len(),
        )
    }
}
