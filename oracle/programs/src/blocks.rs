//! Runs of the block run drawn from the generator: a block's spans, then
//! ranges of it one after another. Inputs are made so that another program
//! can make the same, as in [`phases`](crate::phases).

use ruled::api::lanes::{ATAN, SIN};

use crate::decimations::{numbers, seeded};
use crate::phases::slope_table;
use crate::singles::{Buffer, Buffers, Call, Draws, Kind, Most, lengths, step};
use crate::{Generator, Hash, lookup_table};

use Buffer::{
    Add, Base0, Base1, Coefs, Curve, Cycle, Fm, Inner, Last, Mod0, Mod1, Numbers, Output, Pairs,
    Source0, Source1, State, Stretch, Words, Work,
};

/// The code of [`run`], less 80.
pub const BLOCK: usize = 0x60;

/// The buffers of spans and ranges that have floats, in the order in which
/// they are drawn.
pub const BUFFERS: [Buffer; 19] = [
    Coefs, Numbers, Base0, Base1, Mod0, Mod1, Source0, Source1, Curve, Cycle, Inner, Stretch, Add,
    Output, Work, Pairs, Fm, Last, State,
];

/// The most lanes and host frames that a run's block has.
const MOST: Most = Most {
    lanes: 4,
    frames: 40,
};

/// The sine and arctangent numbers as the library takes them.
#[must_use]
pub fn angles() -> Vec<f32> {
    [&SIN[..], &ATAN].concat()
}

/// So many phase words and steps, steps first. Seven words of eight go on
/// from the row before by its step, so that a lane reads near an entry
/// again.
pub fn rows(generator: &mut Generator, cells: usize, lanes: usize, is_wild: bool) -> [Vec<u32>; 2] {
    let steps: Vec<u32> = (0..cells)
        .map(|_| step(generator.draw(), is_wild))
        .collect();
    let mut words: Vec<u32> = Vec::with_capacity(cells);
    for i in 0..cells {
        let draw = generator.draw();
        words.push(match i.checked_sub(lanes) {
            Some(before) if draw & 7 != 0 => words[before].wrapping_add(steps[before]),
            _ => draw,
        });
    }
    [words, steps]
}

/// A run's curve.
pub(crate) fn curve(seed: u32) -> Vec<f32> {
    match seed >> 4 & 1 {
        0 => lookup_table(),
        _ => slope_table(seed),
    }
}

/// A run's buffers, each as long as the largest block asks for.
fn buffers(block: &Call, coefs: &[f32], seed: u32, generator: &mut Generator) -> Buffers {
    let is_wild = seed & 1 == 1;
    let curve = curve(seed);
    let angles = angles();
    let largest = Call {
        factor: 8,
        lanes: MOST.lanes,
        frames: MOST.frames,
        count: MOST.frames,
        ..*block
    };
    let length = |buffer: Buffer| buffer.asked(&largest) as usize;
    let mut cells = Buffers::new(&BUFFERS, length, |buffer, i| match buffer {
        Coefs => coefs[i],
        Numbers => angles[i],
        Curve => curve[i],
        _ => buffer.cell(generator.draw(), is_wild),
    });
    cells.words = rows(generator, length(Words), block.lanes as usize, is_wild);
    cells
}

/// The numbers of a run's block, every other time one that goes on behind its
/// first sub-block.
fn numbers_of(draws: &Draws, modes: [u32; 2], counts: [u32; 3], is_wild: bool) -> Call {
    let call = Call::of(draws, modes, is_wild, MOST);
    let frames = match draws.range >> 31 {
        0 => 33 + (draws.range >> 8) % 8,
        _ => call.frames,
    };
    // no frame is asked for, so that none lies outside a range
    Call {
        frames,
        frame: 0,
        counts,
        ..call
    }
}

/// A call about the block's frames from `first` on: the rest of them, those
/// to a sub-block's end, or some or none.
fn range(block: &Call, draws: &Draws, first: u32) -> Call {
    let left = block.frames - first;
    let count = match draws.range >> 30 {
        0 => left,
        1 => left.min(32 - first % 32),
        _ => (draws.range >> 12) % (left + 1),
    };
    Call {
        active: block.lanes - (draws.sizes >> 8) % block.lanes,
        first,
        count,
        ..*block
    }
}

/// The buffer of which a fault lends a cell less than the call asks for.
fn short(fault: u32) -> Option<Buffer> {
    match fault {
        10 => Some(Words),
        11 => Some(Base0),
        12 => Some(State),
        13 => Some(Output),
        14 => Some(Cycle),
        _ => None,
    }
}

/// The hash of a block's spans and of `count` calls about its ranges, drawn
/// from `seed`, wild ones if it is odd: after each its answer and all cells
/// of the buffers that it changes. Each range starts where the last one
/// ended, and after the block's end at its start again.
#[must_use]
pub fn run(modes: [u32; 2], seed: u32, count: u32) -> u64 {
    let mut generator = Generator(seed);
    let (counts, coefs) = numbers(&seeded(&mut generator, seed));
    let draws = Draws::new(&mut generator);
    let block = numbers_of(&draws, modes, counts, seed & 1 == 1);
    let mut cells = buffers(&block, &coefs, seed, &mut generator);
    let mut hash = Hash::default();
    let mut call_of = |kind: Kind, call: Call, short: Option<Buffer>, fault: u32| {
        let lengths = lengths(&call, |i| draws.gives(i), short, &cells);
        let answer = cells.lend(&lengths).answer(kind, &call.with_fault(fault));
        cells.fold(kind, &answer, &mut hash);
        answer[1]
    };
    call_of(Kind::Prepare, block, None, u32::MAX);
    let mut first = 0;
    for _ in 0..count {
        let draws = Draws::new(&mut generator);
        let fault = draws.fault();
        let frames = call_of(Kind::Run, range(&block, &draws, first), short(fault), fault);
        first = (first + frames) % block.frames;
    }
    hash.0
}
