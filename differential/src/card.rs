//! The proved library's calls for C (crate `card`).

use programs::decimations::Shape;
use programs::files;
use programs::levels::Search;
use programs::pictures::Picture;
use programs::singles::{Call, Slices};

/// A refusal's number and 0, or 0 and the frames.
#[repr(C)]
#[derive(Clone, Copy, Debug, PartialEq, Eq)]
pub struct Answer {
    pub number: u32,
    pub frames: u32,
}

/// The same with a value, 0 after a refusal.
#[repr(C)]
#[derive(Clone, Copy, Debug)]
pub struct Valued {
    pub number: u32,
    pub frames: u32,
    pub value: f32,
}

/// What a block needs: a refusal's number and zeros, or 0 and the block's frames, the floats of five buffers,
/// the most reads and the section steps.
#[repr(C)]
#[derive(Clone, Copy, Debug, Default, PartialEq, Eq)]
pub struct Needs {
    pub number: u32,
    pub frames: u32,
    pub work: u32,
    pub state: u32,
    pub pairs: u32,
    pub fm: u32,
    pub last: u32,
    pub reads: u32,
    pub steps: u32,
}

/// A slot of a patch: a file's whole numbers and the card's floats.
#[repr(C)]
#[derive(Clone, Copy, Debug, PartialEq)]
pub struct PatchSlot {
    pub mode: u32,
    pub hundredths: u32,
    pub ten_thousandths: u32,
    pub amount: f32,
    pub character: f32,
}

/// What a patch file holds: a refusal's number, the byte at which its record starts and zeros, or 0 twice and both
/// slots.
#[repr(C)]
#[derive(Clone, Copy, Debug, PartialEq)]
pub struct Patch {
    pub number: u32,
    pub at: u32,
    pub slots: [PatchSlot; 2],
}

/// A refusal's number and 0, or 0 and the bytes.
#[repr(C)]
#[derive(Clone, Copy, Debug)]
pub struct Written {
    pub number: u32,
    pub bytes: u32,
}

/// The number of the first file that is turned away and 0, or 0 and whether both hold the same patch.
#[repr(C)]
#[derive(Clone, Copy, Debug)]
pub struct Same {
    pub number: u32,
    pub same: u32,
}

/// A refusal's number and 0, or 0 and the amount in hundredths of a percent.
#[repr(C)]
#[derive(Clone, Copy, Debug)]
pub struct Found {
    pub number: u32,
    pub hundredths: u32,
}

unsafe extern "C" {
    fn shaper_amount_for(
        mode: u32,
        sample: f32,
        wanted: f32,
        tolerance: f32,
        numbers: *const f32,
        numbers_len: usize,
    ) -> Found;
    fn shaper_patch_read(file: *const u8, file_len: usize) -> Patch;
    fn shaper_patch_write(
        mode0: u32,
        hundredths0: u32,
        ten_thousandths0: u32,
        mode1: u32,
        hundredths1: u32,
        ten_thousandths1: u32,
        file: *mut u8,
        file_len: usize,
    ) -> Written;
    fn shaper_patch_same(a: *const u8, a_len: usize, b: *const u8, b_len: usize) -> Same;
    fn shaper_plan(
        factor: u32,
        lanes: u32,
        active: u32,
        frames: u32,
        count0: u32,
        count1: u32,
        count2: u32,
    ) -> Needs;
    fn shaper_preview(
        mode0: u32,
        mode1: u32,
        character0: f32,
        character1: f32,
        amount0: f32,
        amount1: f32,
        numbers: *const f32,
        numbers_len: usize,
        curve: *const f32,
        curve_len: usize,
        cycle: *const f32,
        cycle_len: usize,
        picture: *mut f32,
        points: usize,
    ) -> Answer;
    fn shaper_decimate(
        factor: u32,
        lanes: u32,
        active: u32,
        frames: u32,
        count0: u32,
        count1: u32,
        count2: u32,
        coefs: *const f32,
        coefs_len: usize,
        buffer: *mut f32,
        buffer_len: usize,
        state: *mut f32,
        state_len: usize,
    ) -> Answer;
    fn shaper_prepare(
        mode0: u32,
        mode1: u32,
        factor: u32,
        lanes: u32,
        active: u32,
        frames: u32,
        rate: u32,
        base0: *const f32,
        base0_len: usize,
        base1: *const f32,
        base1_len: usize,
        mod0: *const f32,
        mod0_len: usize,
        mod1: *const f32,
        mod1_len: usize,
        source0: *const f32,
        source0_len: usize,
        source1: *const f32,
        source1_len: usize,
        curve: *const f32,
        curve_len: usize,
        inner: *mut f32,
        inner_len: usize,
        stretch: *mut f32,
        stretch_len: usize,
        add: *mut f32,
        add_len: usize,
    ) -> Answer;
    fn shaper_stretch(
        factor: u32,
        lanes: u32,
        active: u32,
        lane: u32,
        frames: u32,
        first: u32,
        count: u32,
        asked_first: u32,
        asked_count: u32,
        step: u32,
        stretch: *const f32,
        stretch_len: usize,
        add: *const f32,
        add_len: usize,
    ) -> Valued;
}

/// What a block of these numbers needs.
pub fn plan(shape: Shape, [count0, count1, count2]: [u32; 3]) -> Needs {
    let Shape { factor, lanes, active, frames } = shape;
    // SAFETY: there is no pointer.
    unsafe { shaper_plan(factor, lanes, active, frames, count0, count1, count2) }
}

/// One shaped cycle, a point for each cell of `picture`.
pub fn preview(call: &Picture, numbers: &[f32], curve: &[f32], cycle: &[f32], picture: &mut [f32]) -> Answer {
    // SAFETY: the pointers and counts are the slices', of which the written one overlaps none.
    unsafe {
        shaper_preview(
            call.modes[0],
            call.modes[1],
            call.characters[0],
            call.characters[1],
            call.amounts[0],
            call.amounts[1],
            numbers.as_ptr(),
            numbers.len(),
            curve.as_ptr(),
            curve.len(),
            cycle.as_ptr(),
            cycle.len(),
            picture.as_mut_ptr(),
            picture.len(),
        )
    }
}

/// What a patch file holds.
pub fn patch_read(file: &[u8]) -> Patch {
    // SAFETY: the pointer and count are the slice's.
    unsafe { shaper_patch_read(file.as_ptr(), file.len()) }
}

/// A patch, written to the start of `file`.
pub fn patch_write(patch: &files::Patch, file: &mut [u8]) -> Written {
    let [slot0, slot1] = patch;
    // SAFETY: the pointer and count are the slice's.
    unsafe {
        shaper_patch_write(
            slot0.mode,
            slot0.hundredths,
            slot0.ten_thousandths,
            slot1.mode,
            slot1.hundredths,
            slot1.ten_thousandths,
            file.as_mut_ptr(),
            file.len(),
        )
    }
}

/// Whether two files hold the same patch.
pub fn patch_same(a: &[u8], b: &[u8]) -> Same {
    // SAFETY: the pointers and counts are the slices', of which none is written.
    unsafe { shaper_patch_same(a.as_ptr(), a.len(), b.as_ptr(), b.len()) }
}

/// The least amount at which a mode gives the wanted output.
pub fn amount_for(search: &Search, numbers: &[f32]) -> Found {
    let &Search { mode, sample, wanted, tolerance } = search;
    // SAFETY: the pointer and count are the slice's.
    unsafe { shaper_amount_for(mode, sample, wanted, tolerance, numbers.as_ptr(), numbers.len()) }
}

/// The decimation of `buffer` in place.
pub fn decimate(shape: Shape, counts: [u32; 3], coefs: &[f32], buffer: &mut [f32], state: &mut [f32]) -> Answer {
    // SAFETY: the pointers and counts are the slices', of which the written ones overlap none.
    unsafe {
        shaper_decimate(
            shape.factor,
            shape.lanes,
            shape.active,
            shape.frames,
            counts[0],
            counts[1],
            counts[2],
            coefs.as_ptr(),
            coefs.len(),
            buffer.as_mut_ptr(),
            buffer.len(),
            state.as_mut_ptr(),
            state.len(),
        )
    }
}

/// The three spans of a block, written.
pub fn prepare(call: &Call, lent: Slices<'_>) -> Answer {
    let Slices { lent: read, inner, stretch, add, .. } = lent;
    // SAFETY: the pointers and counts are the slices', of which the written ones overlap none.
    unsafe {
        shaper_prepare(
            call.modes[0],
            call.modes[1],
            call.factor,
            call.lanes,
            call.active,
            call.frames,
            call.rate,
            read.base[0].as_ptr(),
            read.base[0].len(),
            read.base[1].as_ptr(),
            read.base[1].len(),
            read.mods[0].as_ptr(),
            read.mods[0].len(),
            read.mods[1].as_ptr(),
            read.mods[1].len(),
            read.sources[0].as_ptr(),
            read.sources[0].len(),
            read.sources[1].as_ptr(),
            read.sources[1].len(),
            read.curve.as_ptr(),
            read.curve.len(),
            inner.as_mut_ptr(),
            inner.len(),
            stretch.as_mut_ptr(),
            stretch.len(),
            add.as_mut_ptr(),
            add.len(),
        )
    }
}

/// A lane's steepest slope over the asked frames.
pub fn stretch(call: &Call, lent: Slices<'_>) -> Valued {
    let Slices { stretch, add, .. } = lent;
    // SAFETY: the pointers and counts are the slices'.
    unsafe {
        shaper_stretch(
            call.factor,
            call.lanes,
            call.active,
            call.lane,
            call.frames,
            call.first,
            call.count,
            call.frame,
            call.asked,
            call.step,
            stretch.as_ptr(),
            stretch.len(),
            add.as_ptr(),
            add.len(),
        )
    }
}

/// A run of a range: its declaration, and the call of it. One of the two has a lane among its numbers.
macro_rules! run {
    ($(#[$doc:meta])* $run:ident, $export:ident $(, $lane:ident)?) => {
        unsafe extern "C" {
            fn $export(
                mode0: u32,
                mode1: u32,
                character0: f32,
                character1: f32,
                factor: u32,
                lanes: u32,
                active: u32,
                $($lane: u32,)?
                frames: u32,
                first: u32,
                count: u32,
                rate: u32,
                count0: u32,
                count1: u32,
                count2: u32,
                coefs: *const f32,
                coefs_len: usize,
                numbers: *const f32,
                numbers_len: usize,
                base0: *const f32,
                base0_len: usize,
                base1: *const f32,
                base1_len: usize,
                mod0: *const f32,
                mod0_len: usize,
                mod1: *const f32,
                mod1_len: usize,
                source0: *const f32,
                source0_len: usize,
                source1: *const f32,
                source1_len: usize,
                curve: *const f32,
                curve_len: usize,
                cycle: *const f32,
                cycle_len: usize,
                words: *const u32,
                words_len: usize,
                steps: *const u32,
                steps_len: usize,
                inner: *const f32,
                inner_len: usize,
                output: *mut f32,
                output_len: usize,
                work: *mut f32,
                work_len: usize,
                pairs: *mut f32,
                pairs_len: usize,
                fm: *mut f32,
                fm_len: usize,
                last: *mut f32,
                last_len: usize,
                state: *mut f32,
                state_len: usize,
            ) -> Answer;
        }

        $(#[$doc])*
        pub fn $run(call: &Call, lent: &mut Slices<'_>) -> Answer {
            let Slices { lent: read, inner, output, work, pairs, fm, last, state, .. } = lent;
            // SAFETY: the pointers and counts are the slices', of which the written ones overlap none.
            unsafe {
                $export(
                    call.modes[0],
                    call.modes[1],
                    call.characters[0],
                    call.characters[1],
                    call.factor,
                    call.lanes,
                    call.active,
                    $(call.$lane,)?
                    call.frames,
                    call.first,
                    call.count,
                    call.rate,
                    call.counts[0],
                    call.counts[1],
                    call.counts[2],
                    lent.coefs.as_ptr(),
                    lent.coefs.len(),
                    lent.numbers.as_ptr(),
                    lent.numbers.len(),
                    read.base[0].as_ptr(),
                    read.base[0].len(),
                    read.base[1].as_ptr(),
                    read.base[1].len(),
                    read.mods[0].as_ptr(),
                    read.mods[0].len(),
                    read.mods[1].as_ptr(),
                    read.mods[1].len(),
                    read.sources[0].as_ptr(),
                    read.sources[0].len(),
                    read.sources[1].as_ptr(),
                    read.sources[1].len(),
                    read.curve.as_ptr(),
                    read.curve.len(),
                    lent.cycle.as_ptr(),
                    lent.cycle.len(),
                    lent.words.as_ptr(),
                    lent.words.len(),
                    lent.steps.as_ptr(),
                    lent.steps.len(),
                    inner.as_ptr(),
                    inner.len(),
                    output.as_mut_ptr(),
                    output.len(),
                    work.as_mut_ptr(),
                    work.len(),
                    pairs.as_mut_ptr(),
                    pairs.len(),
                    fm.as_mut_ptr(),
                    fm.len(),
                    last.as_mut_ptr(),
                    last.len(),
                    state.as_mut_ptr(),
                    state.len(),
                )
            }
        }
    };
}

run!(
    /// The run of a range of a block.
    block_run, shaper_block_run
);

run!(
    /// One lane's share of it.
    lane_run, shaper_lane_run, lane
);
