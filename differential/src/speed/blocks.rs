//! A block run measured against the oracle's on the same block: all lanes active, the card's designs, floats of
//! the sizes that a render has.

use super::clock::{Times, medians_of};
use crate::card;
use crate::guards::differs;
use programs::Generator;
use programs::blocks::{BUFFERS, angles};
use programs::decimations::numbers;
use programs::singles::{Buffer, Buffers, Call, Draws, Kind, Lengths, Most, Slices};
use ruled::api::halfband::{self, Design, Kept};
use ruled::api::{self, Card, Rows, State};
use std::array;
use std::hint::black_box;

/// How many samples at least a round renders.
const SAMPLES: u32 = 8192;

/// How many rounds there are: the most, but for large blocks as few as render so many samples.
const LEAST_ROUNDS: u32 = 3;
const MOST_ROUNDS: u32 = 51;
const ALL_SAMPLES: u32 = 2_000_000;

/// How a block is run, range after range.
#[derive(Clone, Copy, Debug)]
pub struct Way {
    pub lanes: u32,
    /// The block's host frames.
    pub frames: u32,
    /// Those of each call, a divisor of the block's.
    pub range: u32,
}

impl Way {
    /// The blocks of the tables that are not about ranges and lanes.
    pub const WHOLE: Self = Self { lanes: 8, frames: 128, range: 128 };
}

/// A block run to be measured.
#[derive(Clone, Copy, Debug)]
pub struct Run {
    /// Slot 0's and slot 1's.
    pub modes: [u32; 2],
    pub factor: u32,
    pub is_modulated: bool,
    pub way: Way,
}

/// The mode of this name.
pub fn mode(name: &str) -> u32 {
    (0..70).find(|&mode| format!("{:?}", api::mode(mode)) == name).expect("a mode's name")
}

/// So many phase words and steps: each lane goes on by its own step, of a note's size.
fn words(cells: u32, lanes: u32, factor: u32) -> [Vec<u32>; 2] {
    let step = |at: u32| (20_000_000 + 3_000_000 * (at % lanes % 8)) / factor;
    let word = |at: u32| (at / lanes).wrapping_mul(step(at));
    [(0..cells).map(word).collect(), (0..cells).map(step).collect()]
}

impl Run {
    /// Two modes by each factor, without modulation and then with it.
    pub fn all(modes: [u32; 2], factors: &[u32], way: Way) -> impl Iterator<Item = Self> {
        let by = move |is_modulated| factors.iter().map(move |&factor| Self { modes, factor, is_modulated, way });
        [false, true].into_iter().flat_map(by)
    }

    /// Its factor and whether its amounts are modulated.
    pub fn kind(&self) -> String {
        let with = if self.is_modulated { ", modulated" } else { "" };
        format!("by {}{with}", self.factor)
    }

    /// Its modes, but for an Off in slot 1, and its kind.
    pub fn name(&self) -> String {
        let modes = match self.modes {
            [mode0, 0] => format!("{:?}", api::mode(mode0)),
            modes => modes.map(|mode| format!("{:?}", api::mode(mode))).join(", "),
        };
        format!("{modes} {}", self.kind())
    }

    /// The numbers of the whole block's run.
    fn call(&self, counts: [u32; 3]) -> Call {
        let Way { lanes, frames, .. } = self.way;
        Call {
            characters: [0.25, 0.125],
            factor: self.factor,
            lanes,
            active: lanes,
            frames,
            first: 0,
            count: frames,
            rate: 48_000,
            counts,
            ..Call::of(&Draws::default(), self.modes, false, Most { lanes, frames })
        }
    }

    /// Its nanoseconds a rendered sample.
    pub fn measured(&self) -> Times {
        let [times] = self.by([Kind::Run]);
        times
    }

    /// Those of some kinds of the library's calls.
    pub fn by<const KINDS: usize>(&self, kinds: [Kind; KINDS]) -> [Times; KINDS] {
        Block::new(self).measured(self.way.range, kinds)
    }
}

/// A range by one call, or by a call for each lane.
fn make(kind: Kind, call: &Call, lent: &mut Slices<'_>) {
    if kind == Kind::Run {
        black_box(card::block_run(call, lent));
        return;
    }
    for lane in 0..call.active {
        black_box(card::lane_run(&Call { lane, ..*call }, lent));
    }
}

/// A block's numbers and its buffers: sources where a mode reads one.
struct Block {
    call: Call,
    designs: [Design; 3],
    cells: Buffers,
    lengths: Lengths,
}

impl Block {
    fn new(run: &Run) -> Self {
        let designs = halfband::designs();
        let (counts, coefs) = numbers(&designs);
        let call = run.call(counts);
        let angles = angles();
        let mut g = Generator(0x5eed);
        let length = |buffer: Buffer| buffer.asked(&call) as usize;
        let mut cells = Buffers::new(&BUFFERS, length, |buffer, i| match buffer {
            Buffer::Coefs => coefs[i],
            Buffer::Numbers => angles[i],
            // in between, where every mode has work to do
            Buffer::Base0 | Buffer::Base1 => 37.0 + (i % 8) as f32,
            _ => buffer.cell(g.draw(), false),
        });
        cells.words = words(length(Buffer::Words) as u32, call.lanes, call.factor);
        let is_given = |buffer| match buffer {
            Buffer::Mod0 | Buffer::Mod1 => run.is_modulated,
            Buffer::Source0 => api::source(run.modes[0]) != 0,
            Buffer::Source1 => api::source(run.modes[1]) != 0,
            _ => true,
        };
        let lengths = Buffer::ALL.map(|buffer| if is_given(buffer) { length(buffer) } else { 0 });
        let mut block = Self { call, designs, cells, lengths };
        let prepared = card::prepare(&call, block.cells.lend(&lengths));
        assert_eq!(prepared.number, 0, "the spans");
        block
    }

    /// The Rust and each kind of the library's calls, in ranges of so many host frames. What they are lent is
    /// made before, as a host has it at hand, and the Rust's decimator keeps its state, as the crate's does.
    fn measured<const KINDS: usize>(mut self, range: u32, kinds: [Kind; KINDS]) -> [Times; KINDS] {
        let mut made = kinds.map(|_| self.cells.clone());
        let mut ours = made.each_mut().map(|cells| cells.lend(&self.lengths));
        let (call, lent) = (self.call, self.cells.lend(&self.lengths));
        let card = Card::new(&call.settings(), &lent.lent);
        let rows = Rows { cycle: lent.cycle, words: lent.words, steps: lent.steps, inner: lent.inner };
        let mut state = State { pairs: lent.pairs, fm: lent.fm, last: lent.last };
        let mut kept = Kept::new(&self.designs, call.lanes as usize, lent.state);
        let samples = call.rendered() * call.lanes;
        let blocks = SAMPLES.div_ceil(samples);
        let firsts = || (0..blocks).flat_map(|_| (0..call.frames).step_by(range as usize));
        let rounds = (ALL_SAMPLES / (blocks * samples)).clamp(LEAST_ROUNDS, MOST_ROUNDS);
        let times = medians_of(KINDS + 1, rounds as usize, f64::from(blocks * samples), |side| {
            for first in firsts() {
                if side < KINDS {
                    make(kinds[side], &black_box(Call { first, count: range, ..call }), &mut ours[side]);
                } else {
                    let range = black_box(first as usize..(first + range) as usize);
                    black_box(&card).run_kept(range, &mut kept, &rows, lent.output, lent.work, state.again());
                }
            }
        });
        kept.state_to(lent.state);
        made.iter().for_each(|ours| self.check(ours));
        array::from_fn(|side| Times { here: times[side], rust: times[KINDS] })
    }

    /// The library has done the same as the Rust.
    fn check(&self, ours: &Buffers) {
        for &buffer in Kind::Run.changed() {
            let [ours, theirs] = [ours, &self.cells].map(|cells| &cells.floats[buffer as usize]);
            assert_eq!(differs(ours, theirs), None, "{buffer:?} of {:?}", self.call);
        }
    }
}
