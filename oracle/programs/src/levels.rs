//! Which amount gives a level (document 02, E6): the least one at which the
//! oracle's plain `distort` lands near enough, refusals too, and runs of such
//! searches drawn from the generator. The crate has no search: this is a model,
//! written from the text over the oracle's curves. Inputs are made so that
//! another program can make the same, as in [`phases`](crate::phases).

use std::collections::BTreeSet;

use ruled::api::{self, lanes, wave};

use crate::files::{MODE, MOST};
use crate::phases::fraction;
use crate::singles::cell;
use crate::waves::sample;
use crate::{Generator, Hash};

/// The code of [`run`], less 80.
pub const LEVEL: usize = 0x63;

/// The sine and arctangent numbers that a call asks for.
const NUMBERS: usize = 13;

/// So many hundredths of a percent, as the card makes an amount of them.
#[must_use]
pub fn amount(hundredths: u32) -> f32 {
    lanes::clamp(hundredths as f32 / 100.0, 0.0, 100.0) * 0.01
}

/// What a mode makes of a sample at every amount, from 0 on.
pub fn outputs(mode: u32, sample: f32) -> impl Iterator<Item = f32> {
    (0..=MOST).map(move |hundredths| wave::distort(mode, amount(hundredths), sample))
}

/// The numbers of a call that looks for an amount.
#[derive(Clone, Copy, Debug)]
pub struct Search {
    pub mode: u32,
    pub sample: f32,
    pub wanted: f32,
    pub tolerance: f32,
}

impl Search {
    /// Whether an output is near enough.
    #[must_use]
    pub fn is_within(&self, output: f32) -> bool {
        (output - self.wanted).abs() <= self.tolerance
    }

    /// Its number and the hundredths of a percent, if it is lent so many sine
    /// and arctangent numbers.
    #[must_use]
    pub fn answer(&self, numbers: usize) -> [u32; 2] {
        if self.mode > MODE || !api::distortion(self.mode) {
            return [1, 0];
        }
        if numbers < NUMBERS {
            return [7, 0];
        }
        outputs(self.mode, self.sample)
            .position(|output| self.is_within(output))
            .map_or([12, 0], |hundredths| [0, hundredths as u32])
    }
}

/// What a run's search is made of.
struct Draws {
    /// How the others are read, and what is wrong with the mode.
    how: u32,
    sample: u32,
    wanted: u32,
    tolerance: u32,
    amount: u32,
}

impl Draws {
    /// Five draws, in the order of the fields.
    fn new(generator: &mut Generator) -> Self {
        let [how, sample, wanted, tolerance, amount] = [0; 5].map(|_: u32| generator.draw());
        Self {
            how,
            sample,
            wanted,
            tolerance,
            amount,
        }
    }

    /// The run's mode, or one that is turned down: above all, or on either
    /// side of the distortions.
    fn mode(&self, mode: u32) -> u32 {
        match self.how >> 27 {
            0 => MODE + 1,
            1 => 18,
            2 => 33,
            _ => mode,
        }
    }

    /// 0, or a number from 0 to 1/64; any kind of float if it is wild.
    fn tolerance(&self, is_wild: bool) -> f32 {
        let tame = f32::from_bits(fraction(self.tolerance)) * 0.015_625;
        match self.how >> 3 & 3 {
            0 => 0.0,
            _ => cell(self.tolerance, is_wild, tame.to_bits()),
        }
    }

    /// The amount that the wanted output is made at: none, the most, or any.
    fn hundredths(&self) -> u32 {
        match self.amount >> 29 {
            0 => 0,
            1 => MOST,
            _ => self.amount % (MOST + 1),
        }
    }

    /// The output of the run's mode at that amount, as far from it as the
    /// tolerance on either side, or any float.
    fn wanted(&self, mode: u32, x: f32, tolerance: f32, is_wild: bool) -> f32 {
        let output = wave::distort(mode, amount(self.hundredths()), x);
        match self.how & 7 {
            0..=2 => output,
            3 => output + tolerance,
            4 => output - tolerance,
            _ => cell(self.wanted, is_wild, sample(self.wanted)),
        }
    }

    fn search(&self, mode: u32, is_wild: bool) -> Search {
        let x = cell(self.sample, is_wild, sample(self.sample));
        let tolerance = self.tolerance(is_wild);
        Search {
            mode: self.mode(mode),
            sample: x,
            wanted: self.wanted(mode, x, tolerance, is_wild),
            tolerance,
        }
    }
}

/// The hash of `count` searches drawn from `seed`, wild ones if it is odd:
/// after each its answer, which is put to `seen` too.
pub fn run(mode: u32, seed: u32, count: u32, seen: &mut BTreeSet<[u32; 2]>) -> u64 {
    let is_wild = seed & 1 == 1;
    let mut generator = Generator(seed);
    let mut hash = Hash::default();
    for _ in 0..count {
        let search = Draws::new(&mut generator).search(mode, is_wild);
        let answer = search.answer(NUMBERS);
        seen.insert(answer);
        answer.into_iter().for_each(|word| hash.fold(word));
    }
    hash.0
}
