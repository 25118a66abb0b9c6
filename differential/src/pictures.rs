//! Pictures of one shaped cycle against the oracle's `preview`, and the cells around them that are left alone;
//! pictures drawn again; every refusal; values that are known without the oracle.

use crate::card;
use crate::guards::{GUARDS, differs, sets, unchanged};
use crate::lending::{Floats, pair};
use crate::phases::{float, tables};
use crate::tally::{Part, Tally};
use programs::Generator;
use programs::blocks::angles;
use programs::pictures::Picture;
use programs::singles::Buffer;

/// How many cells a call is lent.
#[derive(Clone, Copy, Debug)]
struct Lengths {
    numbers: usize,
    curve: usize,
    cycle: usize,
    points: usize,
}

impl Lengths {
    /// No more than a picture of so many points asks for.
    fn asked(points: usize) -> Self {
        Self { numbers: 13, curve: 1025, cycle: 2048, points }
    }

    /// Those of what is read.
    fn read(&self) -> [usize; 3] {
        [self.numbers, self.curve, self.cycle]
    }
}

/// What a call is lent; `cells` has the picture, with guard cells before it and after it.
#[derive(Clone)]
struct Lent {
    numbers: Vec<f32>,
    curve: Vec<f32>,
    cycle: Vec<f32>,
    cells: Vec<f32>,
}

impl Lent {
    /// So many cells: numbers, curve and cycle, and the picture.
    fn lend(&mut self, lengths: &Lengths) -> ([&[f32]; 3], &mut [f32]) {
        let [numbers, curve, cycle] = lengths.read();
        let read = [&self.numbers[..numbers], &self.curve[..curve], &self.cycle[..cycle]];
        (read, &mut self.cells[GUARDS..GUARDS + lengths.points])
    }

    /// The library's picture: its number and frames.
    fn ported(&mut self, picture: &Picture, lengths: &Lengths) -> [u32; 2] {
        let ([numbers, curve, cycle], cells) = self.lend(lengths);
        let answer = card::preview(picture, numbers, curve, cycle, cells);
        [answer.number, answer.frames]
    }

    /// The oracle's, which has its own sine and arctangent numbers.
    fn oracle(&mut self, picture: &Picture, lengths: &Lengths) -> [u32; 2] {
        let ([numbers, curve, cycle], cells) = self.lend(lengths);
        picture.answer(numbers, curve, cycle, cells)
    }

    /// The first cell that isn't as it was, of what is only read and outside the picture; of a refused call, of all.
    fn changed(&self, before: &Self, points: usize, is_refused: bool) -> Option<(&'static str, usize)> {
        let is_left = |at| is_refused || !(GUARDS..GUARDS + points).contains(&at);
        let buffers = [
            ("numbers", unchanged(&self.numbers, &before.numbers, |_| true)),
            ("curve", unchanged(&self.curve, &before.curve, |_| true)),
            ("cycle", unchanged(&self.cycle, &before.cycle, |_| true)),
            ("cells", unchanged(&self.cells, &before.cells, is_left)),
        ];
        buffers.into_iter().find_map(|(name, at)| Some((name, at?)))
    }

    /// One call of both on the same cells. They go on as the library leaves them.
    fn compare(&mut self, picture: &Picture, lengths: &Lengths, tally: &mut Tally) {
        let [before, mut theirs] = [self.clone(), self.clone()];
        let got = self.ported(picture, lengths);
        let want = theirs.oracle(picture, lengths);
        tally.case(got == want, || format!("{picture:x?} with {lengths:?}: {got:?}, the oracle {want:?}"));
        let wrong = differs(&self.cells, &theirs.cells);
        tally.case(wrong.is_none(), || format!("{picture:x?} with {lengths:?}: cell {wrong:?}"));
        let wrong = self.changed(&before, lengths.points, want[0] != 0);
        tally.case(wrong.is_none(), || format!("left by {picture:x?} with {lengths:?}: cell {wrong:?}"));
    }
}

/// An amount in percent: 30, whose hundredth is another number than 30 times 0.01, a whole one, one from -100 to
/// 300, a float of any kind, or one of these floats.
fn amount(floats: Floats, g: &mut Generator) -> f32 {
    let draw = g.draw() >> 8;
    match draw & 7 {
        0 => 30.0,
        1 | 2 => ((draw >> 3) % 101) as f32,
        3 => (draw >> 3) as f32 / 5_242.88 - 100.0,
        4 => float(g),
        _ => floats.cell(Buffer::Base0, g),
    }
}

fn picture(modes: [u32; 2], g: &mut Generator) -> Picture {
    let floats = Floats::draw(g);
    Picture {
        modes,
        // tame ones are from 0 to 1, as a curve's entries are
        characters: [0; 2].map(|_| floats.cell(Buffer::Curve, g)),
        amounts: [0; 2].map(|_| amount(floats, g)),
    }
}

/// None, few, those of a panel, many and the most.
const POINTS: [u32; 9] = [0, 1, 2, 3, 5, 64, 100, 1000, 4096];

fn points(g: &mut Generator) -> usize {
    let [how, draw] = [g.draw() >> 28, g.draw() >> 8];
    let points = match how {
        15 => draw % 4097,
        _ => POINTS.get(how as usize).copied().unwrap_or(draw % 300),
    };
    points as usize
}

fn cells(count: usize, buffer: Buffer, g: &mut Generator) -> Vec<f32> {
    let floats = Floats::draw(g);
    (0..count).map(|_| floats.cell(buffer, g)).collect()
}

/// Every other time some cells longer than it is, with NaN there.
fn longer(mut cells: Vec<f32>, g: &mut Generator) -> Vec<f32> {
    let draw = g.draw() >> 8;
    let more = if draw & 1 == 0 { 0 } else { 1 + (draw >> 1) as usize % GUARDS };
    let nan = |_| Floats::AllNan.cell(Buffer::Cycle, g);
    cells.extend((0..more).map(nan));
    cells
}

/// Cells for a drawn picture, of which it is lent all but the guards; every other time one of some curves.
fn lending(curves: &[Vec<f32>], g: &mut Generator) -> (Lengths, Lent) {
    let asked = Lengths::asked(points(g));
    let curve = match curves.get((g.draw() >> 28) as usize) {
        Some(curve) => curve.clone(),
        None => cells(asked.curve, Buffer::Curve, g),
    };
    let cycle = cells(asked.cycle, Buffer::Cycle, g);
    let [numbers, curve, cycle] = [angles(), curve, cycle].map(|cells| longer(cells, g));
    let lengths = Lengths { numbers: numbers.len(), curve: curve.len(), cycle: cycle.len(), ..asked };
    let cells = cells(asked.points + 2 * GUARDS, Buffer::Output, g);
    (lengths, Lent { numbers, curve, cycle, cells })
}

/// Some pictures, each with cells of its own.
fn drawn(count: u64, part: u32, modes: impl Fn(u64, &mut Generator) -> [u32; 2], tally: &mut Tally) {
    let mut g = tally.generator(part);
    let curves = tables(g.draw());
    for i in 0..count {
        let picture = picture(modes(i, &mut g), &mut g);
        let (lengths, mut lent) = lending(&curves, &mut g);
        lent.compare(&picture, &lengths, tally);
    }
}

/// All pairs of modes in turn.
fn pairs(count: u64, tally: &mut Tally) {
    drawn(count, 0x1f83_d9ab, |i, _| pair(i), tally);
}

/// Two of the modes that shape a picture, all but Off and those with a source; every eighth time two filters.
fn shaping(count: u64, tally: &mut Tally) {
    let modes = |_, g: &mut Generator| match g.draw() >> 8 {
        draw if draw & 7 == 0 => [LOW_PASS + (draw >> 3 & 1), LOW_PASS + (draw >> 4 & 1)],
        draw => [1 + (draw >> 3) % 32, 1 + (draw >> 8) % 32],
    };
    drawn(count, 0x3070_dd17, modes, tally);
}

/// Twice over different cells, with sine and arctangent numbers that the oracle can't be lent.
fn again(count: u64, tally: &mut Tally) {
    let mut g = tally.generator(0x5be0_cd19);
    let curves = tables(g.draw());
    for i in 0..count / 4 {
        let picture = picture(pair(i), &mut g);
        let (lengths, lent) = lending(&curves, &mut g);
        let first = Lent { numbers: cells(lengths.numbers, Buffer::Numbers, &mut g), ..lent };
        let second = Lent { cells: cells(first.cells.len(), Buffer::Output, &mut g), ..first.clone() };
        let drawn = [first, second].map(|before| {
            let mut lent = before.clone();
            let answer = lent.ported(&picture, &lengths);
            let wrong = lent.changed(&before, lengths.points, false);
            let is_right = answer == [0, lengths.points as u32] && wrong.is_none();
            tally.case(is_right, || format!("{picture:x?} with {lengths:?}: {answer:?}, left {wrong:?}"));
            lent.lend(&lengths).1.to_vec()
        });
        let wrong = differs(&drawn[0], &drawn[1]);
        tally.case(wrong.is_none(), || format!("{picture:x?} with {lengths:?} drawn again: cell {wrong:?}"));
    }
}

/// A call that is right but for the causes that are put in.
#[derive(Clone, Copy, Debug)]
struct Asked {
    picture: Picture,
    lengths: Lengths,
}

/// What a cause sets.
#[derive(Clone, Copy, Debug, PartialEq, Eq)]
enum Argument {
    Mode0,
    Mode1,
    Points,
    Numbers,
    Curve,
    Cycle,
}

/// A cause's line, 0 where it is a neighbour that passes; what it sets, and how.
type Cause = (u32, Argument, fn(&mut Asked));

const CAUSES: [Cause; 21] = {
    use Argument::*;
    [
        (0, Mode0, |a| a.picture.modes[0] = 69),
        (1, Mode0, |a| a.picture.modes[0] = 70),
        (1, Mode0, |a| a.picture.modes[0] = 256),
        (1, Mode0, |a| a.picture.modes[0] = u32::MAX),
        (0, Mode1, |a| a.picture.modes[1] = 69),
        (1, Mode1, |a| a.picture.modes[1] = 70),
        (1, Mode1, |a| a.picture.modes[1] = 256),
        (1, Mode1, |a| a.picture.modes[1] = u32::MAX),
        (0, Points, |a| a.lengths.points = 0),
        (0, Points, |a| a.lengths.points = 4096),
        (4, Points, |a| a.lengths.points = 4097),
        (4, Points, |a| a.lengths.points = LARGE),
        (0, Numbers, |a| a.lengths.numbers = 14),
        (7, Numbers, |a| a.lengths.numbers = 12),
        (7, Numbers, |a| a.lengths.numbers = 0),
        (0, Curve, |a| a.lengths.curve = 1026),
        (7, Curve, |a| a.lengths.curve = 1024),
        (7, Curve, |a| a.lengths.curve = 0),
        (0, Cycle, |a| a.lengths.cycle = 2049),
        (7, Cycle, |a| a.lengths.cycle = 2047),
        (7, Cycle, |a| a.lengths.cycle = 0),
    ]
};

/// Points well above those that pass.
const LARGE: usize = 5000;

/// Cells for every such call.
fn largest(g: &mut Generator) -> Lent {
    let mut cells = |count: usize, buffer| (0..count).map(|_| Floats::Mixed.cell(buffer, g)).collect();
    Lent {
        numbers: angles().into_iter().chain([f32::NAN]).collect(),
        curve: cells(1026, Buffer::Curve),
        cycle: cells(2049, Buffer::Cycle),
        cells: cells(LARGE + 2 * GUARDS, Buffer::Output),
    }
}

/// The number of some causes together: the first line of theirs.
fn line(causes: &[Cause]) -> u32 {
    causes.iter().map(|cause| cause.0).filter(|&line| line != 0).min().unwrap_or(0)
}

/// No cause, every cause alone, and every one with every choice of the others.
fn refused(_: u64, tally: &mut Tally) {
    let mut g = tally.generator(0x9b05_688c);
    let mut lent = largest(&mut g);
    let arguments = CAUSES.map(|cause| cause.1);
    for modes in [[5, 21], [17, 16]] {
        let picture = Picture { modes, characters: [0.25, 0.125], amounts: [37.0, 61.0] };
        sets(&arguments, arguments.len(), &mut |set| {
            let mut asked = Asked { picture, lengths: Lengths::asked(64) };
            let causes: Vec<Cause> = set.iter().map(|&at| CAUSES[at]).collect();
            causes.iter().for_each(|cause| cause.2(&mut asked));
            let Asked { picture, lengths } = asked;
            let [got, want] = [picture.refusal(lengths.points, lengths.read()), line(&causes)];
            tally.case(got == want, || format!("the table's line of {asked:x?}: {got}, the causes' {want}"));
            lent.compare(&picture, &lengths, tally);
        });
    }
}

const ODD_EVEN: u32 = 16;
const LOW_PASS: u32 = 17;
const HIGH_PASS: u32 = 18;
const HARD_CLIP: u32 = 21;
const AM_1: u32 = 58;

/// The library's picture with a mode and an amount in slot 0, slot 1 off.
fn alone(mode: u32, amount: f32, cycle: &[f32], points: usize) -> Vec<f32> {
    let picture = Picture { modes: [mode, 0], characters: [0.0; 2], amounts: [amount, 0.0] };
    let identity: Vec<f32> = (0..1025u16).map(|i| f32::from(i) / 1024.0).collect();
    let mut cells = vec![f32::NAN; points];
    card::preview(&picture, &angles(), &identity, cycle, &mut cells);
    cells
}

/// Cycles as they are, clipped and settled; a -0 that is added to +0, and one that isn't. It stands before a lower
/// entry: before any other it reads as +0.
fn values(_: u64, tally: &mut Tally) {
    let rising: Vec<f32> = (0..2048u16).map(f32::from).collect();
    let [ones, twos, minus_zeros] = [1.0, 2.0, -0.0].map(|x| vec![x; 2048]);
    let [mut fall, mut opposed, mut rise] = [-0.5, -0.5, 0.5].map(|x| vec![x; 2048]);
    [fall[0], opposed[0], rise[0]] = [-0.0; 3];
    opposed[1024] = 0.5;
    let pictures: [(u32, f32, &[f32], &[f32]); 13] = [
        (0, 0.0, &rising, &[0.0, 512.0, 1024.0, 1536.0]),
        (0, 0.0, &rising, &[0.0, 682.6667, 1365.3334]),
        (0, 0.0, &rise, &[0.0, 0.5]),
        (0, 0.0, &minus_zeros, &[0.0; 2048]),
        (HARD_CLIP, 0.0, &twos, &[1.0; 5]),
        (ODD_EVEN, 50.0, &rising, &rising),
        (ODD_EVEN, 50.0, &opposed, &[0.0, 0.5]),
        (ODD_EVEN, 50.0, &fall, &[-0.0, -0.5]),
        (AM_1, 50.0, &rising, &rising),
        (AM_1, 50.0, &opposed, &[-0.0, 0.5]),
        (AM_1, 50.0, &fall, &[-0.0, -0.5]),
        (LOW_PASS, 0.0, &ones, &[1.0; 256]),
        (HIGH_PASS, 0.0, &ones, &[0.0; 256]),
    ];
    for (mode, amount, cycle, want) in pictures {
        let wrong = differs(&alone(mode, amount, cycle, want.len()), want);
        tally.case(wrong.is_none(), || format!("mode {mode} at {amount}, {} points: cell {wrong:?}", want.len()));
    }
    let settled = alone(LOW_PASS, 0.0, &ones, 1)[0];
    tally.case((settled - 1.0).abs() < 0.007, || format!("a low-pass of one point: {settled}"));
}

/// `count` pictures of all pairs of modes, as many of two modes that shape, a quarter as many twice with numbers
/// of their own; every cause of a refusal with every choice of the others.
pub const PARTS: &[Part] = &[
    ("pictures of all pairs", pairs),
    ("pictures of two shaping modes", shaping),
    ("pictures drawn again", again),
    ("refusals of pictures", refused),
    ("values of pictures", values),
];
