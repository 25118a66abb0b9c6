//! The reading of the lent cycle between two entries: words one by one, by each way that leads to it, against the
//! oracle and against a model.

use crate::card;
use crate::guards::{GUARDS, differs};
use crate::lending::{Floats, Lending};
use crate::phases::{GUARD, float, slots};
use crate::probe;
use crate::tally::{Part, Tally};
use programs::blocks::angles;
use programs::phases::Case;
use programs::pictures::Picture;
use programs::singles::{Buffer, Buffers, Call, Draws, Kind, Most};
use programs::{Generator, lookup_table};
use ruled::api;
use ruled::osc::{self, LaneReads, Wave};

/// The entries of a cycle, and the words from one to the next.
const ENTRIES: usize = 2048;
const STEP: u32 = 1 << 21;

/// Neighbours at which operations come to their ends: zeros, whose sign a reading may change, what is subnormal
/// and next to it, what rounds, what overflows as a difference, infinities and NaN.
const SPECIAL: [f32; 20] = [
    0.0,
    -0.0,
    1e-45,
    -1e-45,
    1e-38,
    -1e-38,
    f32::MIN_POSITIVE,
    0.1,
    0.5,
    0.999_999_94,
    1.0,
    1.000_000_1,
    -1.0,
    3e38,
    -3e38,
    f32::MAX,
    f32::MIN,
    f32::INFINITY,
    f32::NEG_INFINITY,
    f32::NAN,
];

/// A cycle and as many cells past it as any call is lent or has behind what it is lent. They are NaN, since no
/// reading may look at them.
pub fn guarded(entry: impl FnMut(usize) -> f32) -> Vec<f32> {
    (0..ENTRIES).map(entry).chain([f32::NAN; 2 * GUARDS]).collect()
}

/// One whose entries are tame but for a special one of so many.
pub fn special(of: u32, g: &mut Generator) -> Vec<f32> {
    guarded(|_| match g.draw() >> 8 {
        draw if draw.is_multiple_of(of) => SPECIAL[(draw / of) as usize % SPECIAL.len()],
        _ => Floats::Tame.cell(Buffer::Cycle, g),
    })
}

/// Moves words to their entry and to just before the next one, of eight one each.
pub fn to_entries(words: &mut [u32], g: &mut Generator) {
    for word in words {
        match g.draw() >> 29 {
            0 => *word &= !(STEP - 1),
            1 => *word |= STEP - 1,
            _ => {}
        }
    }
}

/// The reading in f64, each operation then rounded to f32: f64 has more than twice the digits, so that an answer is
/// as if rounded once. The fraction is a whole number until the product.
fn modelled(cycle: &[f32], word: u32) -> f32 {
    let at = (word / STEP) as usize;
    let first = f64::from(cycle[at]);
    let next = f64::from(if at == ENTRIES - 1 { cycle[0] } else { cycle[at + 1] });
    let difference = (next - first) as f32;
    let product = (f64::from(difference) * f64::from(word % STEP) / f64::from(STEP)) as f32;
    (first + f64::from(product)) as f32
}

/// The sum of a list's reads with the model's.
pub fn modelled_sum(cycle: &[f32], reads: &LaneReads) -> f32 {
    let product = |r: usize| reads.gain[r] * modelled(cycle, reads.phase[r]);
    match reads.count {
        0 => modelled(cycle, reads.phase[0]),
        count => (1..count).fold(product(0), |sum, r| sum + product(r)),
    }
}

/// A word, and the patterns of its entry and the next, for what is printed.
fn shown(cycle: &[f32], word: u32) -> (u32, [u32; 2]) {
    let at = (word / STEP) as usize;
    (word, [at, (at + 1) % ENTRIES].map(|at| cycle[at].to_bits()))
}

/// How much of a cycle and the cells past it is lent.
const LENT: [usize; 2] = [ENTRIES, ENTRIES + GUARDS];

/// The words of a call, a few rows of lanes.
const WORDS: usize = 8;
const LANES: u32 = 4;

const OFF: u32 = 0;
/// Gives one read its gain and leaves its word.
const FLIP: u32 = 9;
/// Shapes what one read gives.
const LOW_PASS: u32 = 17;
/// Without a source they leave it.
const AM_1: u32 = 58;
const RM_2: u32 = 65;

/// What slots are given that list a word as it is: with no gain if both are off, with one below 1 and above 0 if
/// slot 0 flips, whose edges are that wide.
const CASE: Case = Case { amount: [0.3, 0.0], character: [0.0; 2], half: 1.0, inner: 1.0, word: 0 };

/// Neither slot shapes it.
const PICTURE: Picture = Picture { modes: [OFF; 2], characters: [0.0; 2], amounts: [0.0; 2] };

/// The ways that lead to a reading, with what they are lent beside the cycle and the words.
struct Ways {
    curve: Vec<f32>,
    numbers: Vec<f32>,
    /// A block run by 1. Its output is the readings, but for a filter's.
    call: Call,
    lending: Lending,
}

impl Ways {
    fn new() -> Self {
        let most = Most { lanes: LANES, frames: WORDS as u32 / LANES };
        let call = Call {
            factor: 1,
            lanes: most.lanes,
            active: most.lanes,
            frames: most.frames,
            first: 0,
            count: most.frames,
            counts: [1; 3],
            ..Call::of(&Draws::default(), [OFF; 2], false, most)
        };
        let asked = |buffer: Buffer| buffer.asked(&call) as usize;
        let length = |buffer: Buffer| asked(buffer) + 2 * GUARDS;
        let numbers = angles();
        let mut cells = Buffers::new(Kind::Run.buffers(), length, |buffer, i| match buffer {
            Buffer::Numbers if i < numbers.len() => numbers[i],
            Buffer::Base0 | Buffer::Base1 => 50.0,
            _ => f32::from_bits(GUARD),
        });
        cells.words = [vec![0; WORDS], vec![20_000_000; WORDS]];
        let is_lent = |buffer: &Buffer| Kind::Run.buffers().contains(buffer);
        let is_source = |buffer| matches!(buffer, Buffer::Source0 | Buffer::Source1);
        let lengths = Buffer::ALL.map(|buffer| if is_lent(&buffer) && !is_source(buffer) { asked(buffer) } else { 0 });
        Self { curve: lookup_table(), numbers, call, lending: Lending { kind: Kind::Run, cells, lengths } }
    }

    /// Lists of count 0, and of one read with a gain.
    fn lists(&self, cycle: &[f32], words: &[u32; WORDS], tally: &mut Tally) {
        for modes in [[OFF, OFF], [FLIP, OFF]] {
            let mut sums = [f32::from_bits(GUARD); WORDS];
            probe::reads_run(&self.curve, cycle, slots(modes, &CASE), CASE.half, CASE.inner, words, &mut sums);
            for (&word, got) in words.iter().zip(sums) {
                let list = Case { word, ..CASE }.reads(modes, &self.curve);
                let input = (modes, shown(cycle, word));
                tally.same("sum of a list", input, got, osc::read(Wave(cycle), &list));
                tally.same_as("the model", "sum of a list", input, got, modelled_sum(cycle, &list));
            }
        }
    }

    fn block(&mut self, cells: &[f32], lent: usize, words: &[u32; WORDS], tally: &mut Tally) {
        let lending = &mut self.lending;
        lending.cells.floats[Buffer::Cycle as usize].copy_from_slice(cells);
        lending.lengths[Buffer::Cycle as usize] = lent;
        lending.cells.words[0].copy_from_slice(words);
        // each by code of its own: a lane without slots, one without maps and states, one without maps
        for modes in [[OFF, OFF], [AM_1, RM_2], [LOW_PASS, OFF]] {
            // a filter goes on with what it is left, so that a NaN would hide all that follows
            lending.part(Buffer::Pairs).fill(0.0);
            lending.compare(&Call { modes, ..self.call }, tally);
            if modes[0] == LOW_PASS {
                continue;
            }
            for (&word, &mut got) in words.iter().zip(lending.part(Buffer::Output)) {
                tally.same_as("the model", "sample of a lane", (modes, shown(cells, word)), got, modelled(cells, word));
            }
        }
    }

    /// Points of the cycle as it is.
    fn picture(&self, cycle: &[f32], points: u32, tally: &mut Tally) {
        let [mut got, mut theirs] = [f32::from_bits(GUARD); 2].map(|cell| vec![cell; points as usize]);
        card::preview(&PICTURE, &self.numbers, &self.curve, cycle, &mut got);
        let Picture { modes, characters, amounts } = PICTURE;
        api::preview(modes, characters, amounts, &self.curve, cycle, &mut theirs);
        let word = |i: u32| ((u64::from(i) << 32) / u64::from(points)) as u32;
        let models: Vec<f32> = (0..points).map(|i| modelled(cycle, word(i))).collect();
        for (name, want) in [("the oracle", theirs), ("the model", models)] {
            let wrong = differs(&got, &want);
            tally.case(wrong.is_none(), || {
                let input = wrong.map(|at| shown(cycle, word(at as u32)));
                format!("cell {wrong:?} of {points} points and {name}: {input:x?}")
            });
        }
    }

    /// A cycle at some words, lent alone and with cells past it.
    fn at_words(&mut self, cells: &[f32], words: &[u32; WORDS], tally: &mut Tally) {
        for lent in LENT {
            self.lists(&cells[..lent], words, tally);
            self.block(cells, lent, words, tally);
        }
    }

    /// The same by pictures: with a point at each entry and one half way to the next, and with one or two at
    /// other words from each entry on.
    fn pictures(&self, cells: &[f32], g: &mut Generator, tally: &mut Tally) {
        let fewer = ENTRIES as u32 + (g.draw() >> 8) % ENTRIES as u32;
        for lent in LENT {
            for points in [2 * ENTRIES as u32, fewer] {
                self.picture(&cells[..lent], points, tally);
            }
        }
    }
}

/// Words from an entry on: at it, next to it, half way, just before the next one, and drawn ones.
fn words(at: u32, g: &mut Generator) -> [u32; WORDS] {
    let mut low = [0, 1, STEP / 2, STEP - 1].into_iter();
    [0; WORDS].map(|_: u32| at * STEP + low.next().unwrap_or_else(|| g.draw() % STEP))
}

/// The first entries, one in the middle, the last ones, and drawn ones.
fn places(g: &mut Generator) -> impl Iterator<Item = u32> + use<> {
    let drawn = [0; 3].map(|_: u32| (g.draw() >> 8) % ENTRIES as u32);
    [0, 1, 1023, 2046, 2047].into_iter().chain(drawn)
}

/// All ordered pairs of special floats, in a cycle that is NaN elsewhere and in one that isn't.
fn neighbours(_: u64, tally: &mut Tally) {
    let mut g = tally.generator(0x510e_527f);
    let mut ways = Ways::new();
    let pairs = SPECIAL.into_iter().flat_map(|first| SPECIAL.map(|next| [first, next]));
    for [first, next] in pairs {
        for at in places(&mut g) {
            for rest in [f32::NAN, 0.25] {
                let mut cells = guarded(|_| rest);
                cells[at as usize] = first;
                cells[(at as usize + 1) % ENTRIES] = next;
                ways.at_words(&cells, &words(at, &mut g), tally);
                ways.pictures(&cells, &mut g, tally);
            }
        }
    }
}

/// Cycles of every kind.
fn drawn(count: u64, tally: &mut Tally) {
    let mut g = tally.generator(0x1f35_6f1d);
    let mut ways = Ways::new();
    for i in 0..count {
        let cells = match i % 4 {
            0 => special(1, &mut g),
            1 => special(8, &mut g),
            2 => guarded(|_| float(&mut g)),
            _ => guarded(|_| Floats::Tame.cell(Buffer::Cycle, &mut g)),
        };
        for at in places(&mut g) {
            ways.at_words(&cells, &words(at, &mut g), tally);
        }
        ways.pictures(&cells, &mut g, tally);
    }
}

/// All pairs of special neighbours; `count` drawn cycles.
pub const PARTS: &[Part] = &[("readings between special neighbours", neighbours), ("readings of drawn cycles", drawn)];
