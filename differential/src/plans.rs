//! What a block needs by `shaper_plan`, against what it uses: the read lists of the oracle, the buffers that a
//! block run accepts, the steps of the oracle's half-band sections; and the refusals.

use crate::blocks::drawn::{Block, Tables};
use crate::card::{self, Needs};
use crate::decimate::{STATE_ROWS, rows, shape};
use crate::guards::{differs, unchanged};
use crate::lending::{Lending, pair, ported};
use crate::tally::{Part, Tally};
use programs::Generator;
use programs::decimations::{Shape, cells, designs};
use programs::singles::{Buffer, Buffers, Call, Kind, Slices};
use ruled::api::halfband::{self as oracle, Design};
use ruled::api::{Card, State};
use ruled::osc::{self, Wave};

fn planned(call: &Call) -> Needs {
    let &Call { factor, lanes, active, frames, .. } = call;
    card::plan(Shape { factor, lanes, active, frames }, call.counts)
}

/// The mode that always reads twice what it is given.
const ODD_EVEN: u32 = 16;

/// Of some read lists.
#[derive(Clone, Copy, Debug, Default)]
struct Reads {
    /// The sum of their counts.
    listed: u64,
    /// The reads of the cycle: a list of count 0 makes one.
    made: u64,
}

/// The oracle's read lists of a block, of every rendered frame and active lane in their order, with the state
/// that each leaves to the next.
fn walked(call: &Call, lent: Slices<'_>) -> Reads {
    let Slices { lent: read, cycle, words, steps, inner, pairs, fm, last, .. } = lent;
    let card = Card::new(&call.settings(), &read);
    let mut state = State { pairs, fm, last };
    let mut reads = Reads::default();
    for frame in 0..call.rendered() as usize {
        for lane in 0..call.active as usize {
            let at = frame * call.lanes as usize + lane;
            let list = card.reads_lane(0, frame, lane, words[at], steps[at], inner, state.again());
            let _ = card.shape_at_lane(0, frame, lane, steps[at], osc::read(Wave(cycle), &list), state.again());
            reads.listed += list.count as u64;
            reads.made += list.count.max(1) as u64;
        }
    }
    reads
}

/// A block's reads by the oracle are at most the plan's, and just so many with `OddEven` in both slots. They are
/// this block's: its walk leaves the state that the library's run does.
fn read_block(block: &Block<'_>, g: &mut Generator, tally: &mut Tally) -> Reads {
    let Lending { cells: mut ours, lengths, .. } = block.lend(g);
    let mut theirs = ours.clone();
    let call = &block.call;
    let most = u64::from(planned(call).reads);
    let reads = walked(call, theirs.lend(&lengths));
    let is_within = match call.modes {
        [ODD_EVEN, ODD_EVEN] => [reads.listed, reads.made] == [most; 2],
        _ => reads.listed <= reads.made && reads.made <= most,
    };
    tally.case(is_within, || format!("reads of {call:x?}: {reads:?}, the plan {most}"));

    let answer = ported(Kind::Run, call, ours.lend(&lengths));
    let is_other = |buffer: &Buffer| {
        let [ours, theirs] = [&ours, &theirs].map(|cells| &cells.floats[*buffer as usize]);
        differs(ours, theirs).is_some()
    };
    let other = [Buffer::Pairs, Buffer::Fm, Buffer::Last].into_iter().find(is_other);
    let is_same = answer[0] == 0 && other.is_none();
    tally.case(is_same, || format!("the block whose lists are counted, {call:x?}: {answer:?}, {other:?}"));
    reads
}

/// All pairs of modes in turn, and after each 70th block one of `OddEven` in both slots that reads something.
fn reads(count: u64, tally: &mut Tally) {
    let mut g = tally.generator(0x3c6e_f372);
    let tables = Tables::new(&mut g);
    let mut reached = 0;
    for i in 0..count {
        let block = Block::draw(pair(i), &tables, &mut g);
        read_block(&block, &mut g, tally);
        if i % 70 == 0 {
            let mut block = Block::draw([ODD_EVEN; 2], &tables, &mut g);
            let frames = block.call.frames.max(1);
            block.call = Call { active: block.call.active.max(1), frames, count: frames, ..block.call };
            let reads = read_block(&block, &mut g, tally);
            reached += u64::from(reads.listed > 0);
        }
    }
    tally.case(reached == count.div_ceil(70) && reached > 0, || format!("{reached} blocks of the most reads"));
}

/// The buffers that a plan is about, with its lengths.
fn lengths(needs: &Needs) -> [(Buffer, usize); 5] {
    let &Needs { work, state, pairs, fm, last, .. } = needs;
    [
        (Buffer::Work, work as usize),
        (Buffer::State, state as usize),
        (Buffer::Pairs, pairs as usize),
        (Buffer::Fm, fm as usize),
        (Buffer::Last, last as usize),
    ]
}

/// The first buffer that has changed, words and steps too, in cells that it was not lent or, if none was to be
/// written, in any.
fn changed(lending: &Lending, before: &Buffers, is_refused: bool) -> Option<Buffer> {
    let is_word = |buffer| matches!(buffer, Buffer::Words | Buffer::Steps);
    Buffer::ALL.into_iter().find(|&buffer| match is_word(buffer) {
        true => lending.cells.words != before.words,
        false => {
            let [after, before] = [&lending.cells, before].map(|cells| &cells.floats[buffer as usize]);
            unchanged(after, before, |at| is_refused || at >= lending.lengths[buffer as usize]).is_some()
        }
    })
}

/// A run of the block with these lengths, and what it leaves.
fn run(call: &Call, lending: &mut Lending, want: [u64; 2], tally: &mut Tally) {
    let before = lending.cells.clone();
    let got = ported(Kind::Run, call, lending.cells.lend(&lending.lengths));
    tally.case(got == want, || format!("run of {call:x?} with {:?}: {got:?}, planned {want:?}", lending.lengths));
    let wrong = changed(lending, &before, want[0] != 0);
    tally.case(wrong.is_none(), || format!("{wrong:?} after {want:?} of {call:x?} with {:?}", lending.lengths));
}

/// With each of the five lengths a cell less than planned the run turns a block down; with just these it runs.
fn sizes(count: u64, tally: &mut Tally) {
    let mut g = tally.generator(0xbb67_ae85);
    let tables = Tables::new(&mut g);
    for i in 0..count / 10 {
        let block = Block::draw(pair(i), &tables, &mut g);
        let mut lending = block.lend(&mut g);
        let planned = lengths(&planned(&block.call));
        for (buffer, length) in planned {
            let have = lending.cells.floats[buffer as usize].len();
            lending.lengths[buffer as usize] = length.min(have);
        }
        for (buffer, _) in planned.into_iter().filter(|&(_, length)| length > 0) {
            lending.lengths[buffer as usize] -= 1;
            run(&block.call, &mut lending, [8, 0], tally);
            lending.lengths[buffer as usize] += 1;
        }
        run(&block.call, &mut lending, [0, u64::from(block.call.frames)], tally);
    }
}

/// The oracle's `Stage::scalar`, which says how many section steps it takes.
fn scalar(design: &Design, frames: usize, [n, lanes]: [usize; 2], buffer: &mut [f32], state: &mut [f32]) -> u64 {
    let (count, coefs) = (design.count, &design.coefs);
    let mut steps = 0;
    for l in 0..lanes {
        let [mut x, mut y] = [[0.0f32; 12]; 2];
        for i in 0..count {
            x[i] = state[(2 * i) * n + l];
            y[i] = state[(2 * i + 1) * n + l];
        }
        for k in 0..frames {
            let early = buffer[2 * k * n + l];
            let late = buffer[(2 * k + 1) * n + l];
            let mut paths = [late, early];
            for i in 0..count {
                let input = paths[i % 2];
                let output = (input - y[i]) * coefs[i] + x[i];
                x[i] = input;
                y[i] = output;
                paths[i % 2] = output;
                steps += 1;
            }
            buffer[k * n + l] = (paths[0] + paths[1]) * 0.5;
        }
        for i in 0..count {
            state[(2 * i) * n + l] = x[i];
            state[(2 * i + 1) * n + l] = y[i];
        }
    }
    steps
}

/// The oracle's `Decimator::process` over it.
fn process(designs: &[Design; 3], shape: [usize; 4], buffer: &mut [f32], state: &mut [f32]) -> u64 {
    let [factor, n, lanes, frames] = shape;
    let stages = factor.trailing_zeros() as usize;
    let block = STATE_ROWS / 3 * n;
    let mut steps = 0;
    for s in 0..stages {
        let from_last = stages - 1 - s;
        let state = &mut state[from_last * block..(from_last + 1) * block];
        steps += scalar(&designs[from_last], frames << from_last, [n, lanes], buffer, state);
    }
    steps
}

/// The plan's steps are the loop's, which leaves what the oracle's own does.
fn step_call(shape: Shape, of: &[Design; 3], is_wild: bool, g: &mut Generator, tally: &mut Tally) {
    let n = shape.lanes as usize;
    let mut ours = [rows(shape) * n, STATE_ROWS * n].map(|length| cells(g, length, is_wild));
    let mut theirs = ours.clone();
    let [factor, lanes, active, frames] = [shape.factor, shape.lanes, shape.active, shape.frames].map(|x| x as usize);
    let [buffer, state] = &mut ours;
    let steps = process(of, [factor, lanes, active, frames], buffer, state);
    let [buffer, state] = &mut theirs;
    oracle::process(of, factor, lanes, active, frames, buffer, state);

    let counts = of.map(|design| design.count as u32);
    let needs = card::plan(shape, counts);
    let is_same = needs.number == 0 && u64::from(needs.steps) == steps;
    tally.case(is_same, || format!("steps of {shape:?} {counts:?}: {needs:?}, the loop {steps}"));
    let wrong = [0, 1].map(|i| differs(&ours[i], &theirs[i]));
    tally.case(wrong == [None; 2], || format!("the counting loop of {shape:?} {counts:?}: cells {wrong:?}"));
}

/// Drawn decimations, the card's designs every fourth time; and the largest of each factor.
fn steps(count: u64, tally: &mut Tally) {
    let mut g = tally.generator(0xa54f_f53a);
    for i in 0..count / 4 {
        let is_wild = i % 2 == 1;
        let of = if i / 2 % 4 == 0 { oracle::designs() } else { designs(&mut g, is_wild) };
        let numbers = Shape { factor: 1 << (i % 4), ..shape(&mut g) };
        step_call(numbers, &of, is_wild, &mut g, tally);
    }
    for factor in [1, 2, 4, 8] {
        let of = designs(&mut g, false).map(|design| Design { count: 12, ..design });
        step_call(Shape { factor, lanes: 64, active: 64, frames: 4096 }, &of, false, &mut g, tally);
    }
}

/// The first line of document 01's table that holds for a plan's numbers, or 0.
fn line(shape: Shape, counts: [u32; 3]) -> u32 {
    match (shape.factor, shape.lanes, shape.active, shape.frames, counts) {
        (0 | 3 | 5..=7 | 9.., ..) => 2,
        (_, 0 | 65.., ..) => 3,
        (_, lanes, active, ..) if active > lanes => 3,
        (_, _, _, 4097.., _) => 4,
        (.., [0 | 13.., _, _] | [_, 0 | 13.., _] | [_, _, 0 | 13..]) => 6,
        _ => 0,
    }
}

/// The plan by its text, zeros after a refusal.
fn needs(shape: Shape, counts: [u32; 3]) -> Needs {
    let number = line(shape, counts);
    if number != 0 {
        return Needs { number, ..Needs::default() };
    }
    let Shape { factor, lanes, active, frames } = shape;
    let stage = |from_last: u32| counts[from_last as usize] * (frames << from_last);
    Needs {
        number,
        frames,
        work: frames * factor * lanes,
        state: 72 * lanes,
        pairs: 4 * lanes,
        fm: 2 * lanes,
        last: lanes,
        reads: 4 * frames * factor * active,
        steps: active * (0..factor.trailing_zeros()).map(stage).sum::<u32>(),
    }
}

fn plan(shape: Shape, counts: [u32; 3], tally: &mut Tally) {
    let [got, want] = [card::plan(shape, counts), needs(shape, counts)];
    tally.case(got == want, || format!("plan of {shape:x?} {counts:x?}: {got:?}, by its text {want:?}"));
}

/// The ends of what passes, and what doesn't, for a number of a plan.
const FACTORS: [u32; 12] = [0, 1, 2, 3, 4, 5, 6, 7, 8, 9, 16, u32::MAX];
const LANES: [u32; 7] = [0, 1, 2, 63, 64, 65, u32::MAX];
const FRAMES: [u32; 6] = [0, 1, 33, 4096, 4097, u32::MAX];
const COUNTS: [u32; 5] = [0, 1, 12, 13, u32::MAX];

/// All of them with all others.
fn ends(_: u64, tally: &mut Tally) {
    for (factor, lanes) in FACTORS.iter().flat_map(|&factor| LANES.map(|lanes| (factor, lanes))) {
        for active in [0, 1, lanes, lanes.wrapping_add(1), u32::MAX] {
            for (frames, count0) in FRAMES.iter().flat_map(|&frames| COUNTS.map(|count| (frames, count))) {
                for (count1, count2) in COUNTS.iter().flat_map(|&count1| COUNTS.map(|count| (count1, count))) {
                    plan(Shape { factor, lanes, active, frames }, [count0, count1, count2], tally);
                }
            }
        }
    }
}

/// Numbers that pass, one of 16 any word or a little more.
fn drawn(count: u64, tally: &mut Tally) {
    let mut g = tally.generator(0x510e_527f);
    let mut to = |least: u32, most: u32| {
        let [how, draw] = [g.draw() >> 8, g.draw()];
        match how & 31 {
            0 => draw,
            1 => most.wrapping_add(1 + (draw & 1)),
            _ => least + (draw >> 8) % (most - least + 1),
        }
    };
    for _ in 0..count {
        let factor = [1, 2, 4, 8].get(to(0, 3) as usize).copied().unwrap_or(5);
        let lanes = to(1, 64);
        let active = to(0, lanes.min(64));
        let shape = Shape { factor, lanes, active, frames: to(0, 4096) };
        plan(shape, [to(1, 12), to(1, 12), to(1, 12)], tally);
    }
}

/// The reads of `count` blocks and of some more, a tenth as many with just the planned lengths, the steps of a
/// quarter as many decimations and of the largest, and as many drawn plans; all plans at their numbers' ends.
pub const PARTS: &[Part] = &[
    ("reads of planned blocks", reads),
    ("runs with planned lengths", sizes),
    ("planned section steps", steps),
    ("plans at their numbers' ends", ends),
    ("drawn plans", drawn),
];
