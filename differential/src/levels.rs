//! Searches for the amount that gives a level, against the model of `programs::levels` over the oracle's curves, since
//! the Rust has none: drawn ones, every amount, tolerances just as wide as a distance, other sine and arctangent
//! numbers, every refusal; values that are known without the oracle.

use crate::card;
use crate::guards::{GUARDS, unchanged};
use crate::lending::Floats;
use crate::tally::{Part, Tally};
use crate::waves::any;
use programs::Generator;
use programs::blocks::angles;
use programs::files::MOST;
use programs::levels::{Search, amount, outputs};
use programs::singles::Buffer;
use ruled::api::{lanes, wave};
use std::f32::consts::{FRAC_PI_2, TAU};
use std::ops::RangeInclusive;

const DISTORTIONS: RangeInclusive<u32> = 19..=32;
const HARD_CLIP: u32 = 21;
const FOLD: u32 = 24;
const SINE_FOLD: u32 = 25;
const RECTIFY: u32 = 28;
const SINE_SHAPER: u32 = 29;

/// How many sine and arctangent numbers a call asks for, and the most that one is lent here.
const NUMBERS: usize = 13;
const LENT: usize = 40;

/// The sine and arctangent numbers that calls are lent, with NaN before them and after them.
struct Lent {
    cells: Vec<f32>,
}

impl Lent {
    fn new(numbers: &[f32]) -> Self {
        let mut cells = vec![f32::NAN; GUARDS + LENT + GUARDS];
        cells[GUARDS..GUARDS + numbers.len()].copy_from_slice(numbers);
        Self { cells }
    }

    /// The library's number and hundredths with so many of the numbers.
    fn ported(&self, search: &Search, length: usize) -> [u32; 2] {
        let answer = card::amount_for(search, &self.cells[GUARDS..GUARDS + length]);
        [answer.number, answer.hundredths]
    }

    /// One search, and the numbers that it leaves.
    fn compare(&self, search: &Search, length: usize, want: [u32; 2], tally: &mut Tally) {
        let before = self.cells.clone();
        let got = self.ported(search, length);
        tally.case(got == want, || format!("{search:?} with {length} numbers: {got:?}, the model {want:?}"));
        let wrong = unchanged(&self.cells, &before, |_| true);
        tally.case(wrong.is_none(), || format!("left by {search:?} with {length} numbers: cell {wrong:?}"));
    }
}

/// The answer of a search that is accepted or finds nothing.
fn found(hundredths: Option<usize>) -> [u32; 2] {
    hundredths.map_or([12, 0], |hundredths| [0, hundredths as u32])
}

/// From -2 to 2.
fn tame(g: &mut Generator) -> f32 {
    (g.draw() >> 8) as f32 / 4_194_304.0 - 2.0
}

/// Three times of four from -2 to 2, else any kind of float.
fn sample(g: &mut Generator) -> f32 {
    if g.draw() >> 30 == 0 { any(g) } else { tame(g) }
}

fn distortion(g: &mut Generator) -> u32 {
    DISTORTIONS.start() + (g.draw() >> 8) % DISTORTIONS.count() as u32
}

/// None, the most, or any.
fn hundredths(g: &mut Generator) -> u32 {
    match g.draw() >> 8 {
        draw if draw & 7 == 0 => 0,
        draw if draw & 7 == 1 => MOST,
        draw => (draw >> 3) % (MOST + 1),
    }
}

/// Either zero, a subnormal, a power of 2 below 1, up to 1/64, or any kind of float, also below 0.
fn tolerance(g: &mut Generator) -> f32 {
    let [how, draw] = [g.draw() >> 28, g.draw()];
    let moderate = (draw >> 8) as f32 / 1_073_741_824.0;
    match how {
        0..=3 => 0.0,
        4 => -0.0,
        5 => f32::from_bits(draw >> 9),
        6..=8 => f32::from_bits((95 + (draw >> 27)) << 23),
        9..=13 => moderate,
        14 => [-moderate, f32::NAN, f32::INFINITY, f32::MAX][(draw >> 6) as usize % 4],
        _ => any(g),
    }
}

/// The output, as far from it as the tolerance, a float nearer or farther; or a level that it has nothing to do with.
fn wanted(output: f32, tolerance: f32, g: &mut Generator) -> f32 {
    let [above, below] = [output + tolerance, output - tolerance];
    match g.draw() >> 28 {
        0..=3 => output,
        4 => above,
        5 => above.next_down(),
        6 => above.next_up(),
        7 => below,
        8 => below.next_up(),
        9 => below.next_down(),
        10 => [0.0, -0.0][(g.draw() >> 31) as usize],
        11 => [f32::INFINITY, f32::NEG_INFINITY][(g.draw() >> 31) as usize],
        12 => f32::NAN,
        13 => tame(g),
        // as wide as it is far: their difference is rounded to a float
        14 if tolerance > 0.0 => [tolerance, -tolerance][(g.draw() >> 31) as usize],
        _ => any(g),
    }
}

/// A search for the output at a drawn amount, or beside it.
fn search(mode: u32, g: &mut Generator) -> Search {
    let [sample, tolerance] = [sample(g), tolerance(g)];
    let output = wave::distort(mode.min(69), amount(hundredths(g)), sample);
    Search { mode, sample, wanted: wanted(output, tolerance, g), tolerance }
}

/// All modes to 71 in turn, but seven times of eight a distortion; one time of sixteen too few numbers. Of each kind of
/// answer there are enough: an amount of 0, one above it, and each refusal.
fn drawn(count: u64, tally: &mut Tally) {
    let mut g = tally.generator(0xd807_aa98);
    let lent = Lent::new(&angles());
    let mut kinds = [0; 5];
    for i in 0..count {
        let mode = if i % 8 == 7 { (i / 8 % 72) as u32 } else { distortion(&mut g) };
        let length = match g.draw() >> 8 {
            draw if draw & 15 == 0 => (draw >> 4) as usize % NUMBERS,
            draw if draw & 3 == 1 => NUMBERS + (draw >> 4) as usize % (LENT - NUMBERS + 1),
            _ => NUMBERS,
        };
        let search = search(mode, &mut g);
        let want = search.answer(length);
        lent.compare(&search, length, want, tally);
        let kind = match want {
            [0, 0] => 0,
            [0, _] => 1,
            [1, _] => 2,
            [7, _] => 3,
            _ => 4,
        };
        kinds[kind] += 1;
    }
    if count >= 1_000 {
        tally.case(kinds.iter().all(|&kind| kind > count / 50), || format!("of {count} searches {kinds:?} of a kind"));
    }
}

/// How many samples of each distortion have amounts looked for.
const SAMPLES: u64 = 3;

/// Amounts by their own outputs, no tolerance: the first with an equal output is found, if it is finite. All amounts by
/// Rectify, whose output of -1 is another at each and shows more of an amount's bits than the others' drive does; by
/// every distortion some in even steps, from a count of 210,022 on all.
fn every(count: u64, tally: &mut Tally) {
    let mut g = tally.generator(0x1283_5b01);
    let lent = Lent::new(&angles());
    let search = Search { mode: RECTIFY, sample: -1.0, wanted: 0.0, tolerance: 0.0 };
    for (hundredths, wanted) in outputs(RECTIFY, -1.0).enumerate() {
        lent.compare(&Search { wanted, ..search }, NUMBERS, found(Some(hundredths)), tally);
    }
    let all = SAMPLES * DISTORTIONS.count() as u64 * u64::from(MOST + 1);
    let step = (all / count.max(1)).clamp(1, u64::from(MOST)) as usize;
    for mode in DISTORTIONS {
        // what the drive brings to the clipping curves' knees; moderate; any
        for sample in [tame(&mut g) / 32.0, tame(&mut g), any(&mut g)] {
            let outputs: Vec<f32> = outputs(mode, sample).collect();
            let first = g.draw() as usize % step;
            for wanted in outputs.iter().copied().skip(first).step_by(step).chain([outputs[MOST as usize]]) {
                let equal = outputs.iter().position(|&output| output == wanted && wanted.is_finite());
                let search = Search { mode, sample, wanted, tolerance: 0.0 };
                lent.compare(&search, NUMBERS, found(equal), tally);
            }
        }
    }
}

/// The amounts whose outputs come nearer than those of all amounts before them, and how near.
fn nearer(distances: &[f32]) -> Vec<(usize, f32)> {
    let mut records: Vec<(usize, f32)> = Vec::new();
    for (at, &distance) in distances.iter().enumerate().filter(|(_, distance)| !distance.is_nan()) {
        if records.last().is_none_or(|&(_, least)| distance < least) {
            records.push((at, distance));
        }
    }
    records
}

/// Tolerances as wide as such distances find their amounts; by a float less they find the next of them, after the last
/// none; by a float more the first amount that is so near.
fn widths(count: u64, tally: &mut Tally) {
    let mut g = tally.generator(0x2431_85be);
    let lent = Lent::new(&angles());
    for i in 0..count / 20 {
        let mode = DISTORTIONS.start() + (i % 14) as u32;
        let sample = if i / 14 % 4 == 3 { any(&mut g) } else { tame(&mut g) / 2.0 };
        let outputs: Vec<f32> = outputs(mode, sample).collect();
        let near = outputs[hundredths(&mut g) as usize] + tame(&mut g) / 64.0;
        let wanted = [near, near, tame(&mut g), any(&mut g)][(g.draw() >> 30) as usize];
        let distances: Vec<f32> = outputs.iter().map(|output| (output - wanted).abs()).collect();
        let records = nearer(&distances);
        let last = records.len().saturating_sub(1);
        for at in [0, g.draw() as usize % (last + 1), last] {
            let Some(&(hundredths, distance)) = records.get(at) else {
                continue;
            };
            let next = records.get(at + 1).map(|&(hundredths, _)| hundredths);
            let wider = distances.iter().position(|&other| other <= distance.next_up());
            let each = [(distance, Some(hundredths)), (distance.next_down(), next), (distance.next_up(), wider)];
            for (tolerance, hundredths) in each {
                let search = Search { mode, sample, wanted, tolerance };
                lent.compare(&search, NUMBERS, found(hundredths), tally);
            }
        }
    }
}

/// The oracle's `sin_cycles`, with lent numbers.
fn sin_cycles(sine: &[f32], t: f32) -> f32 {
    let wrapped = t - lanes::floor(t + 0.5);
    let a = lanes::abs(wrapped);
    let x = lanes::min(a, 0.5 - a) * TAU;
    let p = sine[..4].iter().rev().fold(sine[4], |p, &k| lanes::mul_add(p, x * x, k));
    p * x * lanes::sign(wrapped)
}

/// The oracle's `distort` with them. Only two of its curves have a sine, and none an arctangent.
fn distort(sine: &[f32], mode: u32, a: f32, x: f32) -> f32 {
    let driven = x * wave::drive(mode, a);
    match mode {
        SINE_FOLD => sin_cycles(sine, driven * 0.25),
        SINE_SHAPER => sin_cycles(sine, lanes::clamp(driven, -FRAC_PI_2, FRAC_PI_2) * (1.0 / TAU)),
        _ => wave::distort(mode, a, x),
    }
}

/// Drawn numbers, or the crate's but for one of them.
fn numbers(g: &mut Generator) -> Vec<f32> {
    if g.draw() >> 31 == 0 {
        let floats = Floats::draw(g);
        return (0..NUMBERS).map(|_| floats.cell(Buffer::Numbers, g)).collect();
    }
    let mut numbers = angles();
    let at = (g.draw() >> 8) as usize % NUMBERS;
    numbers[at] = [numbers[at].next_up(), -numbers[at], f32::NAN, any(g)][(g.draw() >> 30) as usize];
    numbers
}

/// Other sine and arctangent numbers than the oracle's, two times of three with a mode that has a sine.
fn other_numbers(count: u64, tally: &mut Tally) {
    let mut g = tally.generator(0x550c_7dc3);
    for i in 0..count / 4 {
        let mode = [SINE_FOLD, SINE_SHAPER, distortion(&mut g)][i as usize % 3];
        let numbers = numbers(&mut g);
        let Search { sample, wanted: of_oracle, tolerance, .. } = search(mode, &mut g);
        let output = |sine: &[f32], hundredths| distort(sine, mode, amount(hundredths), sample);
        let wanted = match i / 3 % 4 {
            0 => of_oracle,
            _ => wanted(output(&numbers, hundredths(&mut g)), tolerance, &mut g),
        };
        let search = Search { mode, sample, wanted, tolerance };
        let least = (0..=MOST).position(|hundredths| search.is_within(output(&numbers, hundredths)));
        Lent::new(&numbers).compare(&search, NUMBERS, found(least), tally);
        let hundredths = hundredths(&mut g);
        let own = wave::distort(mode, amount(hundredths), sample);
        tally.same("distort with lent numbers", (mode, hundredths, sample), output(&lanes::SIN, hundredths), own);
    }
}

/// All modes to 71 and some that end like a distortion, with too few numbers, enough and more; each for a level that an
/// amount above 0 would give, and for one that none does.
fn refused(_: u64, tally: &mut Tally) {
    let lent = Lent::new(&angles());
    let large = [1 << 31, u32::MAX].into_iter().chain([8, 16, 31].map(|bit| HARD_CLIP + (1 << bit)));
    for mode in (0..=71).chain(large) {
        let curve = if mode < 70 { mode } else { HARD_CLIP };
        for length in [0, 1, 12, NUMBERS, 14, LENT] {
            for is_there in [true, false] {
                let sample = -0.03125;
                let wanted = if is_there { wave::distort(curve, amount(5_000), sample) } else { 3.0 };
                let search = Search { mode, sample, wanted, tolerance: 0.0 };
                let number = match (DISTORTIONS.contains(&mode), length) {
                    (false, _) => 1,
                    (true, ..NUMBERS) => 7,
                    _ if is_there => 0,
                    _ => 12,
                };
                let [got, want] = [lent.ported(&search, length), search.answer(length)];
                let is_right = got[0] == number && (number == 0) == (got[1] > 0);
                tally.case(is_right, || format!("{search:?} with {length} numbers: {got:?}, by the text {number}"));
                tally.case(got == want, || format!("{search:?} with {length} numbers: {got:?}, the model {want:?}"));
            }
        }
    }
}

/// Levels whose amounts can be told from the curves: where the drive reaches a knee, and where a fold comes back to 0;
/// a rectifier off, half on and wholly on; distances as wide as the tolerance, or a float wider; zeros, infinities and
/// NaN.
fn values(_: u64, tally: &mut Tally) {
    const INFINITE: f32 = f32::INFINITY;
    let lent = Lent::new(&angles());
    let levels: [(u32, f32, f32, f32, [u32; 2]); 23] = [
        (HARD_CLIP, 0.5, 1.0, 0.0, [0, 2_007]),
        (HARD_CLIP, 0.5, 0.75, 0.01, [0, 1_136]),
        (HARD_CLIP, 2.0, 1.0, 0.0, [0, 0]),
        (HARD_CLIP, 2.0, 1.5, 0.5, [0, 0]),
        (HARD_CLIP, 2.0, 1.5, 0.49999997, [12, 0]),
        (HARD_CLIP, 0.5, -1e9, 1e9, [0, 0]),
        (HARD_CLIP, 0.0, 1.0, 0.5, [12, 0]),
        (HARD_CLIP, 0.0, 0.0, 0.0, [0, 0]),
        (HARD_CLIP, 0.0, -0.0, -0.0, [0, 0]),
        (HARD_CLIP, 0.0, 0.0, -1.0, [12, 0]),
        (HARD_CLIP, 0.0, 0.0, f32::NAN, [12, 0]),
        (HARD_CLIP, 0.0, f32::NAN, INFINITE, [12, 0]),
        (HARD_CLIP, f32::NAN, 0.0, INFINITE, [12, 0]),
        (HARD_CLIP, 0.0, INFINITE, INFINITE, [0, 0]),
        (HARD_CLIP, 0.0, INFINITE, f32::MAX, [12, 0]),
        // NaN with no amount, infinite with any
        (RECTIFY, f32::MIN, 0.0, INFINITE, [0, 1]),
        (RECTIFY, f32::MIN, INFINITE, INFINITE, [12, 0]),
        (RECTIFY, -1.0, -1.0, 0.0, [0, 0]),
        (RECTIFY, -1.0, 0.0, 0.0, [0, 5_000]),
        (RECTIFY, -1.0, 0.0, 1.0, [0, 0]),
        (RECTIFY, -1.0, 1.0, 0.0, [0, 10_000]),
        (RECTIFY, -1.0, 1.0000001, 0.0, [12, 0]),
        (FOLD, 0.5, 0.0, 0.001, [0, 6_688]),
    ];
    for (mode, sample, wanted, tolerance, want) in levels {
        lent.compare(&Search { mode, sample, wanted, tolerance }, NUMBERS, want, tally);
    }
}

/// `count` drawn searches; about as many amounts by their outputs, and all of Rectify's; tolerances about distances
/// from a twentieth as many levels; a quarter as many searches with other numbers; every refusal.
pub const PARTS: &[Part] = &[
    ("drawn searches", drawn),
    ("amounts by their outputs", every),
    ("tolerances as wide as a distance", widths),
    ("searches with other numbers", other_numbers),
    ("refusals of searches", refused),
    ("values of searches", values),
];
