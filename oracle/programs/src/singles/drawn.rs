//! Calls drawn from the generator, and runs of them. Inputs are made so that
//! another program can make the same, as in [`phases`](crate::phases).

use super::{Buffer, Buffers, Call, Kind, Lengths};
use crate::decimations::coefficient;
use crate::phases::{fraction, inner_stretch, slope_table, special};
use crate::waves::{percent, sample};
use crate::{Generator, Hash, lookup_table};

use Buffer::{Add, Base0, Base1, Coefs, Curve, Fm, Inner, Mod0, Mod1, Stretch};

/// The code of the first of [`Kind::SINGLES`], less 80.
pub const FIRST: usize = 0x50;

/// The most lanes and host frames that a run's calls have.
const MOST: Most = Most {
    lanes: 4,
    frames: 72,
};

impl Buffer {
    /// A cell of it: of the size that a render has, or of a wild call.
    #[must_use]
    pub fn cell(self, draw: u32, is_wild: bool) -> f32 {
        let tame = match self {
            Base0 | Base1 => percent(draw),
            Mod0 | Mod1 => modulation(draw),
            Curve => fraction(draw),
            Inner | Stretch => inner_stretch(draw),
            Add => slope(draw),
            Fm => (f32::from_bits(sample(draw)) * 0.5).to_bits(),
            Coefs => coefficient(draw, false).to_bits(),
            _ => sample(draw),
        };
        cell(draw, is_wild, tame)
    }
}

/// A number of percent from -64 to 64.
fn modulation(draw: u32) -> u32 {
    ((draw >> 8) as f32 / 131_072.0 - 64.0).to_bits()
}

/// What modulation adds to a step: 0, or a number of words to 2^30.
fn slope(draw: u32) -> u32 {
    match draw & 3 {
        0 => 0,
        _ => ((draw >> 8) as f32 * 64.0).to_bits(),
    }
}

/// A float: of a wild call an eighth each is special or any pattern.
pub(crate) fn cell(draw: u32, is_wild: bool, tame: u32) -> f32 {
    f32::from_bits(match draw & 7 {
        0 if is_wild => special(draw),
        1 if is_wild => draw,
        _ => tame,
    })
}

/// The most lanes and host frames that a drawn call has.
#[derive(Clone, Copy, Debug)]
pub struct Most {
    pub lanes: u32,
    pub frames: u32,
}

/// What a call is made of.
#[derive(Clone, Copy, Debug, Default)]
pub struct Draws {
    pub sizes: u32,
    pub range: u32,
    /// How the others are read.
    pub how: u32,
    pub rate: u32,
    pub place: u32,
    pub step: u32,
    pub characters: [u32; 2],
    pub x: u32,
}

impl Draws {
    /// Nine draws, in the order of the fields.
    pub fn new(generator: &mut Generator) -> Self {
        let [sizes, range, how, rate, place, step, rest @ ..] =
            [0; 9].map(|_: u32| generator.draw());
        let [character0, character1, x] = rest;
        Self {
            sizes,
            range,
            how,
            rate,
            place,
            step,
            characters: [character0, character1],
            x,
        }
    }

    /// Whether the call is given a modulation or a source, by its place:
    /// three times of four.
    #[must_use]
    pub fn gives(&self, place: u32) -> bool {
        self.how >> (8 + 2 * place) & 3 != 0
    }

    /// What is wrong with a run's call; from 15 on nothing.
    pub(crate) fn fault(&self) -> u32 {
        self.how >> 26
    }
}

/// A word: every other time around a quarter or a 2,048th of the cycle.
fn word(how: u32, draw: u32) -> u32 {
    let near = (draw & 0xff).wrapping_sub(128);
    match how & 3 {
        0 => (draw & 0xc000_0000).wrapping_add(near),
        1 => (draw & 0xffe0_0000).wrapping_add(near),
        _ => draw,
    }
}

/// Words a rendered frame: 0, to 1/64 of a cycle, or any in a wild call.
pub(crate) fn step(draw: u32, is_wild: bool) -> u32 {
    match draw & 7 {
        0 => 0,
        _ if is_wild => draw,
        _ => draw >> 6,
    }
}

/// How many frames from `frame` on a stretch is asked for, of `rendered`:
/// none, one or all; to `edge`, the end of the range's first sub-block, or
/// one more, if the range goes on behind it; or some.
fn asked(how: u32, draw: u32, frame: u32, edge: u32, rendered: u32) -> u32 {
    let rest = rendered - frame;
    match how & 7 {
        0 => 0,
        1 => 1,
        2 => rest,
        _ if frame < edge && edge < rendered => edge - frame + (draw & 1),
        _ => draw % (rest + 1),
    }
}

impl Call {
    /// The call of some draws. The table passes all of its numbers. The
    /// designs' counts are the card's.
    #[must_use]
    pub fn of(draws: &Draws, modes: [u32; 2], is_wild: bool, most: Most) -> Self {
        let &Draws {
            sizes, range, how, ..
        } = draws;
        let factor = 1 << (sizes & 3);
        let lanes = 1 + (sizes >> 2) % most.lanes;
        let active = lanes - (sizes >> 8) % lanes;
        let few = if sizes >> 12 & 3 == 0 { 6 } else { u32::MAX };
        let frames = 1 + (sizes >> 16) % most.frames.min(few);
        let first = range % frames;
        let left = frames - first;
        let some = 1 + (range >> 12) % left;
        let count = if range >> 31 == 0 { left } else { some };
        let frame = (range >> 16) % count * factor + (range >> 8) % factor;
        let edge = (32 - first % 32) * factor;
        let character = |draw| cell(draw, is_wild, fraction(draw));
        Self {
            modes,
            characters: draws.characters.map(character),
            factor,
            lanes,
            active,
            lane: how % active,
            frames,
            first,
            count,
            frame,
            asked: asked(how >> 18, draws.place >> 2, frame, edge, count * factor),
            rate: 8000 + draws.rate % 184_001,
            counts: [10, 6, 5],
            word: word(how >> 16, draws.place),
            step: step(draws.step, is_wild),
            x: cell(draws.x, is_wild, sample(draws.x)),
        }
    }

    /// A run's call with the numbers that a fault sets, of which a kind has
    /// some or none; from 11 on as it is.
    pub(crate) fn with_fault(mut self, fault: u32) -> Self {
        match fault {
            0 => self.modes[0] = 70,
            1 => self.modes[1] = 70,
            2 => self.factor = 3,
            3 => self.active = self.lanes + 1,
            4 => (self.lane, self.counts[0]) = (self.active, 13),
            5 => self.active = 0,
            6 => self.frames = 0,
            7 => self.count = self.frames - self.first + 1,
            8 => (self.frame, self.asked, self.counts[2]) = (self.rendered(), 0, 0),
            9 => self.rate = 7999,
            10 => self.asked = self.rendered() - self.frame + 1,
            _ => {}
        }
        self
    }
}

/// The lengths that a run's call is lent: whole buffers, but none of what
/// isn't given, and of the short one a cell less than the call asks for.
pub(crate) fn lengths(
    call: &Call,
    gives: impl Fn(u32) -> bool,
    short: Option<Buffer>,
    cells: &Buffers,
) -> Lengths {
    let whole = cells.lengths();
    Buffer::ALL.map(|buffer| {
        if buffer.optional().is_some_and(|i| !gives(i)) {
            0
        } else if short == Some(buffer) {
            buffer.asked(call) as usize - 1
        } else {
            whole[buffer as usize]
        }
    })
}

/// The buffer that is short by a fault: the call's first or last.
fn short(kind: Kind, fault: u32) -> Option<Buffer> {
    match fault {
        11 => kind.buffers().first().copied(),
        12 => kind.buffers().last().copied(),
        _ => None,
    }
}

/// The hash of `count` calls drawn from `seed`, wild ones if it is odd:
/// after each its answer and all cells of the buffers that it changes.
#[must_use]
pub fn run(kind: Kind, modes: [u32; 2], seed: u32, count: u32) -> u64 {
    let is_wild = seed & 1 == 1;
    let mut generator = Generator(seed);
    let largest = Call {
        lanes: MOST.lanes,
        frames: MOST.frames,
        ..Call::of(&Draws::default(), modes, false, MOST)
    };
    let curve = match kind {
        Kind::Prepare => slope_table(seed),
        _ => lookup_table(),
    };
    let length = |buffer: Buffer| buffer.asked(&largest) as usize;
    let mut cells = Buffers::new(kind.buffers(), length, |buffer, i| match buffer {
        Curve => curve[i],
        _ => buffer.cell(generator.draw(), is_wild),
    });
    let mut hash = Hash::default();
    for _ in 0..count {
        let draws = Draws::new(&mut generator);
        let fault = draws.fault();
        let call = Call::of(&draws, modes, is_wild, MOST);
        let lengths = lengths(&call, |i| draws.gives(i), short(kind, fault), &cells);
        let answer = cells.lend(&lengths).answer(kind, &call.with_fault(fault));
        cells.fold(kind, &answer, &mut hash);
    }
    hash.0
}
