//! The decimator against the oracle: calls with states carried on, blocks cut into ranges, and the
//! refusals.

use crate::card::{self, Answer};
use crate::guards::{GUARDS, differs, sets, unchanged};
use crate::tally::{Part, Tally};
use programs::Generator;
use programs::decimations::{Shape, cells, designs, numbers};
use ruled::api::halfband::{self as oracle, Design};

/// Cells of a state in a row of lanes.
pub const STATE_ROWS: usize = 72;

pub fn rows(shape: Shape) -> usize {
    (shape.frames * shape.factor) as usize
}

/// Drawn numbers of a call. Most are small, so that there are many; some have up to 64 lanes or some
/// hundred frames.
pub fn shape(g: &mut Generator) -> Shape {
    let [kind, a, b, c] = [0; 4].map(|_: u32| g.draw() >> 8);
    let factor = 1 << (kind & 3);
    let lanes = 1 + a % if kind & 0x1c == 0 { 64 } else { 9 };
    let frames = b % if kind & 0xe0 == 0 { 300 } else { 24 };
    let active = match kind >> 8 & 3 {
        0 => c % (lanes + 1),
        1 => lanes - c % 2,
        _ => lanes,
    };
    Shape { factor, lanes, active, frames }
}

/// Whether a call leaves the cell of a buffer: it is another lane's or past the block.
fn left_of_buffer(shape: Shape, at: usize) -> bool {
    let n = shape.lanes as usize;
    shape.factor == 1 || at >= rows(shape) * n || at % n >= shape.active as usize
}

/// Whether it leaves the cell of a state: that, or of a stage or a section that is not used.
fn left_of_state(shape: Shape, counts: [u32; 3], at: usize) -> bool {
    let n = shape.lanes as usize;
    let (row, lane) = (at / n, at % n);
    row >= STATE_ROWS
        || lane >= shape.active as usize
        || shape.frames == 0
        || row / 24 >= shape.factor.trailing_zeros() as usize
        || row % 24 >= 2 * counts[row / 24] as usize
}

/// One call of both, on the same buffer and states; the states go on.
fn call(shape: Shape, of: &[Design; 3], buffer: &mut [f32], states: [&mut Vec<f32>; 2], tally: &mut Tally) {
    let [state, theirs] = states;
    let (counts, coefs) = numbers(of);
    let at = (shape, counts);
    let (before, state_before) = (buffer.to_vec(), state.clone());
    let mut want = buffer.to_vec();
    let answer = card::decimate(shape, counts, &coefs, buffer, state);
    let [factor, lanes, active, frames] = [shape.factor, shape.lanes, shape.active, shape.frames].map(|x| x as usize);
    oracle::process(of, factor, lanes, active, frames, &mut want, theirs);

    let accepted = Answer { number: 0, frames: shape.frames };
    tally.case(answer == accepted, || format!("answer of {at:?}: {answer:?}"));
    let wrong = differs(buffer, &want);
    tally.case(wrong.is_none(), || format!("buffer of {at:?}: {wrong:?}"));
    let wrong = differs(state, theirs);
    tally.case(wrong.is_none(), || format!("state of {at:?}: {wrong:?}"));
    let wrong = unchanged(buffer, &before, |i| left_of_buffer(shape, i));
    tally.case(wrong.is_none(), || format!("cells to be left of the buffer of {at:?}: {wrong:?}"));
    let wrong = unchanged(state, &state_before, |i| left_of_state(shape, counts, i));
    tally.case(wrong.is_none(), || format!("cells to be left of the state of {at:?}: {wrong:?}"));
}

/// Designs, lanes and a state, over some calls.
fn calls(count: u64, tally: &mut Tally) {
    let mut g = tally.generator(0x1b87_3593);
    for i in 0..count / 4 {
        let is_wild = i % 2 == 1;
        let mut numbers = shape(&mut g);
        let of = if i / 2 % 4 == 0 { oracle::designs() } else { designs(&mut g, is_wild) };
        let mut state = vec![0.0; STATE_ROWS * numbers.lanes as usize];
        if i / 8 % 2 == 0 {
            state = cells(&mut g, state.len(), is_wild);
        }
        state.extend(cells(&mut g, GUARDS, true));
        let mut theirs = state.clone();
        for _ in 0..4 {
            let mut buffer = cells(&mut g, rows(numbers) * numbers.lanes as usize + GUARDS, is_wild);
            call(numbers, &of, &mut buffer, [&mut state, &mut theirs], tally);
            let next = shape(&mut g);
            numbers = Shape { lanes: numbers.lanes, active: next.active.min(numbers.lanes), ..next };
        }
    }
}

/// The results and the state of a block, whole and in ranges.
fn cuts(count: u64, tally: &mut Tally) {
    let mut g = tally.generator(0xcc9e_2d51);
    for i in 0..count / 8 {
        let is_wild = i % 4 == 3;
        let whole = shape(&mut g);
        let n = whole.lanes as usize;
        let of = if i / 4 % 4 == 0 { oracle::designs() } else { designs(&mut g, is_wild) };
        let (counts, coefs) = numbers(&of);
        let input = cells(&mut g, rows(whole) * n, is_wild);
        let start = cells(&mut g, STATE_ROWS * n, is_wild);

        let (mut buffer, mut state) = (input.clone(), start.clone());
        let answer = card::decimate(whole, counts, &coefs, &mut buffer, &mut state);
        let accepted = Answer { number: 0, frames: whole.frames };
        tally.case(answer == accepted, || format!("answer of {whole:?} {counts:?}: {answer:?}"));
        buffer.truncate(whole.frames as usize * n);

        let (mut joined, mut other) = (Vec::new(), start);
        let mut done = 0;
        while done < whole.frames {
            // empty ranges stand among the others
            let most = (whole.frames - done).min(1 + whole.frames / 2);
            let frames = (g.draw() >> 8) % (most + 1);
            let range = Shape { frames, ..whole };
            let from = (done * whole.factor) as usize * n;
            let mut part = input[from..from + rows(range) * n].to_vec();
            let answer = card::decimate(range, counts, &coefs, &mut part, &mut other);
            let accepted = Answer { number: 0, frames };
            tally.case(answer == accepted, || format!("answer of {range:?} {counts:?}: {answer:?}"));
            joined.extend_from_slice(&part[..frames as usize * n]);
            done += frames;
        }
        // other lanes' rows are still the input's, which ranges have elsewhere
        let active = |all: &[f32]| -> Vec<f32> {
            let lanes = whole.active as usize;
            all.chunks(n).flat_map(|row| &row[..lanes]).copied().collect()
        };
        let wrong = differs(&active(&joined), &active(&buffer));
        tally.case(wrong.is_none(), || format!("ranges of {whole:?} {counts:?}: {wrong:?}"));
        let wrong = differs(&other, &state);
        tally.case(wrong.is_none(), || format!("state after ranges of {whole:?} {counts:?}: {wrong:?}"));
    }
}

/// The most lanes and frames, with each factor; and calls that have nothing to do.
fn limits(_: u64, tally: &mut Tally) {
    let mut g = tally.generator(0x52dc_e729);
    for factor in [1, 2, 4, 8] {
        let most = Shape { factor, lanes: 64, active: 64, frames: 4096 };
        let none = Shape { active: 0, frames: 100, ..most };
        for shape in [most, Shape { frames: 0, ..most }, none, Shape { lanes: 1, ..none }] {
            let mut state = cells(&mut g, STATE_ROWS * shape.lanes as usize, false);
            let mut theirs = state.clone();
            let mut buffer = cells(&mut g, rows(shape) * shape.lanes as usize, false);
            let before = (buffer.clone(), state.clone());
            call(shape, &oracle::designs(), &mut buffer, [&mut state, &mut theirs], tally);
            if shape.active == 0 || shape.frames == 0 || factor == 1 {
                tally.case(before == (buffer, state), || format!("{shape:?} changes something"));
            }
        }
    }
}

/// The numbers of a call, and how many cells each of coefficients, buffer and state lacks.
#[derive(Clone, Copy, Debug)]
struct Asked {
    shape: Shape,
    counts: [u32; 3],
    lacking: [usize; 3],
}

impl Asked {
    /// The lengths that are lent: what the numbers ask for, those that are refused cut down, less
    /// what is lacking.
    fn lengths(&self) -> [usize; 3] {
        let Shape { factor, lanes, frames, .. } = self.shape;
        let lanes = lanes.min(65) as usize;
        let buffer = factor.min(16) as usize * frames.min(4097) as usize * lanes;
        let [coefs, rows, state] = self.lacking;
        [36usize.saturating_sub(coefs), buffer.saturating_sub(rows), (STATE_ROWS * lanes).saturating_sub(state)]
    }
}

/// The lines of document 01's table that a decimation has.
type Line = (u32, fn(&Asked) -> bool);

const LINES: [Line; 6] = [
    (2, |a| ![1, 2, 4, 8].contains(&a.shape.factor)),
    (3, |a| !(1..=64).contains(&a.shape.lanes) || a.shape.active > a.shape.lanes),
    (4, |a| a.shape.frames > 4096),
    (6, |a| a.counts.iter().any(|count| !(1..=12).contains(count))),
    (7, |a| a.lengths()[0] < 36),
    (8, |a| {
        let Shape { factor, lanes, frames, .. } = a.shape;
        let [_, buffer, state] = a.lengths().map(|len| len as u128);
        let [factor, lanes, frames] = [factor, lanes, frames].map(u128::from);
        buffer < factor * lanes * frames || state < 72 * lanes
    }),
];

fn first_line(asked: &Asked) -> u32 {
    LINES.iter().find(|line| line.1(asked)).map_or(0, |line| line.0)
}

/// A cause: its line's number, the argument that it sets, and how.
type Cause = (u32, u32, fn(&mut Asked));

const ALL: usize = usize::MAX;

const CAUSES: [Cause; 29] = [
    (2, 0, |a| a.shape.factor = 0),
    (2, 0, |a| a.shape.factor = 3),
    (2, 0, |a| a.shape.factor = 16),
    (2, 0, |a| a.shape.factor = 0x8000_0000),
    (2, 0, |a| a.shape.factor = u32::MAX),
    (3, 1, |a| a.shape.lanes = 0),
    (3, 1, |a| a.shape.lanes = 65),
    (3, 1, |a| a.shape.lanes = u32::MAX),
    (3, 2, |a| a.shape.active = a.shape.lanes + 1),
    (3, 2, |a| a.shape.active = u32::MAX),
    (4, 3, |a| a.shape.frames = 4097),
    (4, 3, |a| a.shape.frames = 0x0800_0000),
    (4, 3, |a| a.shape.frames = u32::MAX),
    (6, 4, |a| a.counts[0] = 0),
    (6, 4, |a| a.counts[0] = 13),
    (6, 4, |a| a.counts[0] = u32::MAX),
    (6, 5, |a| a.counts[1] = 0),
    (6, 5, |a| a.counts[1] = 13),
    (6, 5, |a| a.counts[1] = u32::MAX),
    (6, 6, |a| a.counts[2] = 0),
    (6, 6, |a| a.counts[2] = 13),
    (6, 6, |a| a.counts[2] = u32::MAX),
    (7, 7, |a| a.lacking[0] = 1),
    (7, 7, |a| a.lacking[0] = ALL),
    (8, 8, |a| a.lacking[1] = 1),
    (8, 8, |a| a.lacking[1] = ALL),
    (8, 9, |a| a.lacking[2] = 1),
    (8, 9, |a| a.lacking[2] = 72),
    (8, 9, |a| a.lacking[2] = ALL),
];

/// What refused calls are lent, as it has to stay.
struct Lent {
    coefs: Vec<f32>,
    buffer: Vec<f32>,
    state: Vec<f32>,
}

impl Lent {
    fn new(g: &mut Generator) -> Self {
        Self {
            coefs: cells(g, 36, true),
            buffer: cells(g, 16 * 65 * 4097 + GUARDS, true),
            state: cells(g, STATE_ROWS * 65 + GUARDS, true),
        }
    }

    /// A call with these numbers on copies of these cells.
    fn call(&self, asked: &Asked, tally: &mut Tally) {
        let [coefs, rows, cells] = asked.lengths();
        let before = [&self.buffer[..rows + GUARDS], &self.state[..cells + GUARDS]];
        let [mut buffer, mut state] = before.map(<[f32]>::to_vec);
        let got = card::decimate(asked.shape, asked.counts, &self.coefs[..coefs], &mut buffer[..rows], &mut state[..cells]);
        let number = first_line(asked);
        let want = Answer { number, frames: if number == 0 { asked.shape.frames } else { 0 } };
        tally.case(got == want, || format!("{asked:x?}: {got:?}, the table {want:?}"));
        let kept = |after: &[f32], before: &[f32], from| unchanged(after, before, |i| number != 0 || i >= from);
        let wrong = [kept(&buffer, before[0], rows), kept(&state, before[1], cells)];
        tally.case(wrong == [None; 2], || format!("{asked:x?} ({number}) changes {wrong:?}"));
    }
}

/// No cause, every cause alone, every two and every three, on calls that are right but for them.
fn refusals(_: u64, tally: &mut Tally) {
    let mut g = tally.generator(0x85eb_ca6b);
    let lent = Lent::new(&mut g);
    let right = |factor, lanes, active, frames| Asked {
        shape: Shape { factor, lanes, active, frames },
        counts: [10, 6, 5],
        lacking: [0; 3],
    };
    let bases = [right(4, 8, 5, 10), right(1, 1, 1, 1), right(2, 3, 3, 0), right(8, 2, 0, 3)];
    let arguments = CAUSES.map(|cause| cause.1);
    for base in bases {
        sets(&arguments, 3, &mut |causes| {
            let mut asked = base;
            for &i in causes {
                CAUSES[i].2(&mut asked);
            }
            let number = causes.iter().map(|&i| CAUSES[i].0).min().unwrap_or(0);
            // without frames no buffer is too short
            if base.shape.frames > 0 {
                let table = first_line(&asked);
                tally.case(number == table, || format!("{asked:x?}: {number}, the table {table}"));
            }
            lent.call(&asked, tally);
        });
    }
}

/// Drawn numbers about the ends of their ranges, right or wrong.
fn ends(count: u64, tally: &mut Tally) {
    let mut g = tally.generator(0xe654_6b64);
    let lent = Lent::new(&mut g);
    let mut of = |from: &[u32]| from[(g.draw() >> 8) as usize % from.len()];
    for _ in 0..count {
        let lanes = of(&[1, 2, 3, 5, 8, 16, 63, 64, 64, 65, 0]);
        let mut some = |most: u32| match of(&[0, 1, 2, 3, 4, 5, 6, 7, 8, 9]) {
            0 => of(&[0, most + 1, most + 2, 256, 65_536, u32::MAX]),
            1 => most,
            _ => 1 + of(&[0, 1, 2, 3, 4, 5, 6, 7, 8, 9, 10, 11, 12]) % most,
        };
        let counts = [some(12), some(12), some(12)];
        let active = match some(8) {
            0 => 0,
            1..=7 => lanes,
            more => more,
        };
        let lacking = [0; 3].map(|_: u32| match of(&[0, 0, 0, 0, 0, 0, 0, 1, 2, 3]) {
            3 => ALL,
            cells => cells as usize,
        });
        let shape = Shape {
            factor: of(&[1, 2, 4, 8, 1, 2, 4, 8, 0, 3, 5, 6, 7, 9, 16]),
            lanes,
            active,
            frames: of(&[0, 1, 2, 3, 7, 1, 2, 3, 7, 33, 4097]),
        };
        lent.call(&Asked { shape, counts, lacking }, tally);
    }
}

/// `count` calls and as many about refusals' ends, an eighth as many blocks in ranges, and every cause
/// of a refusal.
pub const PARTS: &[Part] = &[
    ("decimated buffers", calls),
    ("decimated in ranges", cuts),
    ("decimation's limits", limits),
    ("causes of a refusal", refusals),
    ("ends of the ranges", ends),
];
