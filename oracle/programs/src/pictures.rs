//! Pictures of one shaped cycle: what documents 01 and 02 have them answer,
//! refusals too, and runs of them drawn from the generator. Inputs are made
//! so that another program can make the same, as in [`phases`](crate::phases).

use ruled::api;

use crate::blocks::{angles, curve};
use crate::phases::fraction;
use crate::singles::cell;
use crate::waves::{percent, sample};
use crate::{Generator, Hash, pattern};

/// The code of [`run`], less 80.
pub const PICTURE: usize = 0x61;

/// The cells of a curve and of a cycle.
const CURVE: usize = 1025;
const CYCLE: usize = 2048;

/// The cells that a run's pictures are drawn into: more than the points of
/// any of them.
const CELLS: usize = 104;

/// The numbers of a call that draws a picture.
#[derive(Clone, Copy, Debug)]
pub struct Picture {
    pub modes: [u32; 2],
    pub characters: [f32; 2],
    /// In percent.
    pub amounts: [f32; 2],
}

impl Picture {
    /// The first line of document 01's table that holds for a picture of so
    /// many points that is lent so many sine and arctangent numbers, cells of
    /// a curve and cells of a cycle; or 0.
    #[must_use]
    pub fn refusal(&self, points: usize, [numbers, curve, cycle]: [usize; 3]) -> u32 {
        let lines = [
            (1, self.modes.iter().any(|&mode| mode > 69)),
            (4, points > 4096),
            (7, numbers < 13 || curve < CURVE || cycle < CYCLE),
        ];
        lines.iter().find(|line| line.1).map_or(0, |line| line.0)
    }

    /// Its number and its frames; the oracle draws it unless it is refused.
    #[must_use]
    pub fn answer(
        &self,
        numbers: &[f32],
        curve: &[f32],
        cycle: &[f32],
        picture: &mut [f32],
    ) -> [u32; 2] {
        let lengths = [numbers, curve, cycle].map(<[f32]>::len);
        let number = self.refusal(picture.len(), lengths);
        if number != 0 {
            return [number, 0];
        }
        api::preview(
            self.modes,
            self.characters,
            self.amounts,
            curve,
            cycle,
            picture,
        );
        [0, picture.len() as u32]
    }
}

/// What a run's picture is made of.
struct Draws {
    /// How many points it has, and what is wrong with it.
    how: u32,
    points: u32,
    amounts: [u32; 2],
    characters: [u32; 2],
}

impl Draws {
    /// Six draws, in the order of the fields.
    fn new(generator: &mut Generator) -> Self {
        let [how, points, amount0, amount1, character0, character1] =
            [0; 6].map(|_: u32| generator.draw());
        Self {
            how,
            points,
            amounts: [amount0, amount1],
            characters: [character0, character1],
        }
    }

    fn points(&self) -> usize {
        let points = match self.how & 7 {
            0 => 100,
            1 => self.points % 4,
            _ => self.points % 65,
        };
        points as usize
    }

    /// From 4 on nothing is wrong.
    fn fault(&self) -> u32 {
        self.how >> 27
    }

    fn picture(&self, modes: [u32; 2], is_wild: bool) -> Picture {
        let mode = |i: usize| {
            if self.fault() == i as u32 {
                70
            } else {
                modes[i]
            }
        };
        Picture {
            modes: [0, 1].map(mode),
            characters: self
                .characters
                .map(|draw| cell(draw, is_wild, fraction(draw))),
            amounts: self.amounts.map(|draw| cell(draw, is_wild, percent(draw))),
        }
    }
}

/// The hash of `count` pictures drawn from `seed`, wild ones if it is odd:
/// after each its answer and all cells, those past its points too. A picture
/// finds what the ones before it have left.
#[must_use]
pub fn run(modes: [u32; 2], seed: u32, count: u32) -> u64 {
    let is_wild = seed & 1 == 1;
    let mut generator = Generator(seed);
    let angles = angles();
    let curve = curve(seed);
    let [cycle, mut cells] = [CYCLE, CELLS].map(|count| -> Vec<f32> {
        (0..count)
            .map(|_| generator.draw())
            .map(|draw| cell(draw, is_wild, sample(draw)))
            .collect()
    });
    let mut hash = Hash::default();
    for _ in 0..count {
        let draws = Draws::new(&mut generator);
        let lacking = |fault: u32| usize::from(draws.fault() == fault);
        let answer = draws.picture(modes, is_wild).answer(
            &angles,
            &curve[..CURVE - lacking(2)],
            &cycle[..CYCLE - lacking(3)],
            &mut cells[..draws.points()],
        );
        for word in answer.into_iter().chain(cells.iter().map(|&x| pattern(x))) {
            hash.fold(word);
        }
    }
    hash.0
}
