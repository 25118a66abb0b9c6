//! The decimator: calls of it drawn from the generator, and what the oracle
//! leaves in their buffers. Every input is made by whole numbers, by a
//! division by a power of 2 or as a constant, so that another program can
//! make the same.

use ruled::api::halfband::{self, Design};

use crate::{Generator, Hash, NAN, pattern, tame};

/// The code of [`run`], less 80.
pub const DECIMATE: usize = 0x40;

/// The lengths of a run's buffer and state.
pub const BUFFER: usize = 2048;
pub const STATE: usize = 640;

/// The numbers of a call but for its designs' counts.
#[derive(Clone, Copy, Debug)]
pub struct Shape {
    pub factor: u32,
    pub lanes: u32,
    pub active: u32,
    pub frames: u32,
}

impl Shape {
    /// As one word, each number below 256.
    #[must_use]
    pub fn packed(self) -> u32 {
        self.factor << 24 | self.lanes << 16 | self.active << 8 | self.frames
    }
}

/// The floats that a section may end at.
fn special(draw: u32) -> u32 {
    match draw >> 29 {
        0 => 0x0000_0000,
        1 => 0x8000_0000,
        2 => 0x0000_0001, // the least subnormal
        3 => 0x807f_ffff, // the largest subnormal, negative
        4 => 0x7f7f_ffff, // the largest
        5 => 0x7f80_0000, // infinity
        6 => 0xff80_0000,
        _ => NAN,
    }
}

/// A sample or a cell of the state: 2^-15 to 2 with either sign; of a wild
/// call an eighth each is special or any pattern.
#[must_use]
pub fn cell(draw: u32, is_wild: bool) -> f32 {
    f32::from_bits(match draw & 7 {
        0 if is_wild => special(draw),
        1 if is_wild => draw,
        _ => tame(draw),
    })
}

/// A coefficient: from 0 to 1; of a wild call as a cell.
#[must_use]
pub fn coefficient(draw: u32, is_wild: bool) -> f32 {
    match is_wild {
        true => cell(draw, true),
        false => (draw >> 8) as f32 / 16_777_216.0,
    }
}

/// Three designs: a draw for their counts, 1 to 12 each, and one for each
/// coefficient, those past the count too.
pub fn designs(generator: &mut Generator, is_wild: bool) -> [Design; 3] {
    let counts = generator.draw();
    [8, 16, 24].map(|at| Design {
        coefs: [0; 12].map(|_: u32| coefficient(generator.draw(), is_wild)),
        count: 1 + (counts >> at & 0xff) as usize % 12,
    })
}

/// A run's designs, drawn, wild ones if the seed is odd; of seeds with 0 in
/// bits 1 and 2 the card's, after the same draws.
pub fn seeded(generator: &mut Generator, seed: u32) -> [Design; 3] {
    let drawn = designs(generator, seed & 1 == 1);
    match seed >> 1 & 3 {
        0 => halfband::designs(),
        _ => drawn,
    }
}

/// Designs as the library takes them: counts and 36 coefficients.
#[must_use]
pub fn numbers(designs: &[Design; 3]) -> ([u32; 3], Vec<f32>) {
    let counts = designs.map(|d| d.count as u32);
    (counts, designs.iter().flat_map(|d| d.coefs).collect())
}

/// As many cells.
pub fn cells(generator: &mut Generator, count: usize, is_wild: bool) -> Vec<f32> {
    (0..count)
        .map(|_| cell(generator.draw(), is_wild))
        .collect()
}

/// The hash of what a call leaves: all cells of the buffer and of the state,
/// then its number and its frames. Designs, buffer and state are drawn from
/// `seed`, wild ones if it is odd.
#[must_use]
pub fn run(seed: u32, shape: Shape) -> u64 {
    let mut generator = Generator(seed);
    let is_wild = seed & 1 == 1;
    let designs = seeded(&mut generator, seed);
    let mut buffer = cells(&mut generator, BUFFER, is_wild);
    let mut state = cells(&mut generator, STATE, is_wild);
    let [factor, lanes, active, frames] =
        [shape.factor, shape.lanes, shape.active, shape.frames].map(|x| x as usize);
    halfband::process(
        &designs,
        factor,
        lanes,
        active,
        frames,
        &mut buffer,
        &mut state,
    );
    let mut hash = Hash::default();
    for &x in buffer.iter().chain(&state) {
        hash.fold(pattern(x));
    }
    hash.fold(0);
    hash.fold(shape.frames);
    hash.0
}
