//! Drawn blocks, and the ranges that they are cut into.

use crate::cycle;
use crate::lending::{Floats, Lending};
use crate::phases::tables;
use programs::Generator;
use programs::blocks::angles;
use programs::decimations::{designs, numbers};
use programs::singles::{Buffer, Call, Draws, Kind, Most};
use ruled::api::halfband;

/// Curves and cycles of every kind; the cycles with cells past them.
pub struct Tables {
    curves: Vec<Vec<f32>>,
    cycles: Vec<Vec<f32>>,
}

impl Tables {
    pub fn new(g: &mut Generator) -> Self {
        let kinds = [Floats::Tame, Floats::Tame, Floats::Mixed, Floats::Wild];
        let drawn = kinds.map(|floats| cycle::guarded(|_| floats.cell(Buffer::Cycle, g)));
        let special = [1, 32].map(|of| cycle::special(of, g));
        Self { cycles: drawn.into_iter().chain(special).collect(), curves: tables(g.draw()) }
    }
}

/// A block: its numbers, as those of its run in one call, and the cells that belong to no lane.
pub struct Block<'a> {
    pub call: Call,
    pub draws: Draws,
    pub floats: Floats,
    pub numbers: Vec<f32>,
    coefs: Vec<f32>,
    curve: &'a [f32],
    cycle: &'a [f32],
}

/// Blocks about whose ends sub-blocks begin, and about 100.
const FRAMES: [u32; 12] = [31, 32, 33, 63, 64, 65, 95, 96, 97, 99, 100, 101];

/// The numbers of a block. Most are small, so that there are many; some have up to 64 lanes or about 100
/// frames, and a few no frames or no active lane.
fn numbers_of(draws: &Draws, modes: [u32; 2], floats: Floats, g: &mut Generator) -> Call {
    let [how, edge] = [g.draw() >> 8, g.draw() >> 8];
    let lanes = [64, 9, 6, 4, 4, 4, 2, 1][how as usize & 7];
    let call = Call::of(draws, modes, floats.is_wild(), Most { lanes, frames: 12 });
    let frames = match how >> 3 & 31 {
        0 => 0,
        1..=8 => FRAMES[edge as usize % FRAMES.len()],
        _ => call.frames,
    };
    let active = if how >> 8 & 31 == 0 { 0 } else { call.active };
    Call { frames, active, first: 0, count: frames, ..call }
}

impl<'a> Block<'a> {
    pub fn draw(modes: [u32; 2], tables: &'a Tables, g: &mut Generator) -> Self {
        let floats = Floats::draw(g);
        let draws = Draws::new(g);
        let call = numbers_of(&draws, modes, floats, g);
        let is_card = draws.x >> 8 & 1 == 0;
        let (counts, coefs) = numbers(&if is_card { halfband::designs() } else { designs(g, floats.is_wild()) });
        let of = |tables: &'a [Vec<f32>], draw: u32| &tables[(draw >> 8) as usize % tables.len()][..];
        Self {
            call: Call { counts, ..call },
            draws,
            floats,
            numbers: angles(),
            coefs,
            curve: of(&tables.curves, draws.x >> 4),
            cycle: of(&tables.cycles, draws.place),
        }
    }

    /// The cells that aren't drawn for a lending.
    pub fn fixed(&self, buffer: Buffer) -> &[f32] {
        match buffer {
            Buffer::Coefs => &self.coefs,
            Buffer::Numbers => &self.numbers,
            Buffer::Curve => self.curve,
            Buffer::Cycle => self.cycle,
            _ => &[],
        }
    }

    /// Buffers for the block's run in one call.
    pub fn lend(&self, g: &mut Generator) -> Lending {
        Lending::drawn(Kind::Run, &self.call, &self.draws, self.floats, |buffer| self.fixed(buffer), g)
    }

    /// Runs of its ranges; every fourth has its own count of active lanes.
    pub fn runs(&self, g: &mut Generator) -> Vec<Call> {
        let ranges = ranges(self.call.frames, g);
        let run = |[first, count]: [u32; 2]| {
            let how = g.draw() >> 8;
            let active = if how & 3 == 0 { (how >> 2) % (self.call.lanes + 1) } else { self.call.active };
            Call { active, first, count, ..self.call }
        };
        ranges.into_iter().map(run).collect()
    }
}

/// How many of the frames that are left, one or more, the next range has: one, some, those to a
/// sub-block's end, or all.
pub fn next(first: u32, left: u32, g: &mut Generator) -> u32 {
    let draw = g.draw() >> 8;
    match draw & 7 {
        0 => 1,
        1 => left,
        2 | 3 => left.min(32 - first % 32),
        _ => 1 + (draw >> 3) % left,
    }
}

/// The whole block as one range, every third time; else ranges one after another from its start to its
/// end with empty ones among them, and then one that lies anywhere.
pub fn ranges(frames: u32, g: &mut Generator) -> Vec<[u32; 2]> {
    if g.draw().is_multiple_of(3) {
        return vec![[0, frames]];
    }
    let mut ranges = Vec::new();
    let mut first = 0;
    while first < frames {
        let is_empty = g.draw() >> 29 == 0;
        let count = if is_empty { 0 } else { next(first, frames - first, g) };
        ranges.push([first, count]);
        first += count;
    }
    let [from, count] = [g.draw() >> 8, g.draw() >> 8];
    let from = from % (frames + 1);
    ranges.push([from, count % (frames - from + 1)]);
    ranges
}
