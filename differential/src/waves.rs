//! The wave side against the oracle: curves, integrals, filters, distortions, and slots, on single
//! samples and over sequences.

use crate::phases::{GUARD, float};
use crate::probe::{self, Filtered, NUMBERS, Svf, WaveSlot};
use crate::tally::{Part, Tally};
use programs::waves::Case;
use programs::{Generator, pattern};
use ruled::api::wave::{self as oracle, Pair};

/// The floats that a curve, an integral or a drive may have an edge at; each with either sign.
const EDGES: [u32; 45] = [
    0x0000_0000,
    0x0000_0001,
    0x0000_0002,
    0x007f_ffff, // around the least normal
    0x0080_0000,
    0x0080_0001,
    0x0100_0000,
    0x3300_0000, // around 2^-24
    0x3380_0000,
    0x3400_0000,
    0x3c23_d70a, // 0.01
    0x3e7a_cbf5, // tanh of the valve's bias
    0x3e80_0000,
    0x3f00_0000,
    0x3f7f_ffff, // around 1
    0x3f80_0000,
    0x3f80_0001,
    0x3fbf_ffff, // around 3/2
    0x3fc0_0000,
    0x3fc0_0001,
    0x3fc9_0fda, // around π/2
    0x3fc9_0fdb,
    0x3fc9_0fdc,
    0x4000_0000,
    0x4040_0000,
    0x4049_0fdb, // π
    0x4080_0000,
    0x4110_0000,
    0x4120_0000,
    0x42b1_7218, // 128 ln 2
    0x42c8_0000,
    0x4300_0000,
    0x4b00_0000, // 2^23
    0x4b80_0000,
    0x4f00_0000,
    0x4f80_0000,
    0x5f00_0000,
    0x5f7f_ffff, // around 2^64, the square's last
    0x6000_0000,
    0x7e96_7699, // 1e38
    0x7f00_0000,
    0x7f7f_ffff,
    0x7f80_0000,
    0x7fc0_0000,
    0x7f80_0001,
];

fn edge(draw: u32) -> f32 {
    f32::from_bits(EDGES[(draw >> 8) as usize % EDGES.len()] | draw << 31)
}

/// Any kind of float, every fourth time an edge.
pub fn any(g: &mut Generator) -> f32 {
    let how = g.draw();
    if how >> 30 == 0 { edge(how) } else { float(g) }
}

fn unit(g: &mut Generator) -> f32 {
    (g.draw() >> 8) as f32 / 16_777_216.0
}

/// An amount: two times of three from 0 to 1.
fn amount(g: &mut Generator) -> f32 {
    if g.draw() % 3 == 0 { any(g) } else { unit(g) }
}

/// A wave mode 17 to 32, and every eighth time any other.
fn mode(g: &mut Generator) -> u32 {
    match g.draw() >> 8 {
        draw if draw % 8 == 0 => draw / 8 % 70,
        draw => 17 + draw / 8 % 16,
    }
}

fn pair(state: Svf) -> Pair {
    Pair { ic1: state.ic1, ic2: state.ic2 }
}

/// Three floats' patterns: a shaped sample and the state after it.
fn three(y: f32, ic1: f32, ic2: f32) -> [u32; 3] {
    [y, ic1, ic2].map(pattern)
}

fn same(tally: &mut Tally, got: Filtered, (y, state): (f32, Pair), what: impl FnOnce() -> String) {
    let got = three(got.y, got.state.ic1, got.state.ic2);
    let want = three(y, state.ic1, state.ic2);
    tally.case(got == want, || format!("{}: {got:08x?}, the oracle {want:08x?}", what()));
}

fn leaves(count: u64, tally: &mut Tally) {
    let mut g = tally.generator(0x2545_f491);
    let mut check = |mode: u32, a: f32, x: f32| {
        let at = (mode, a.to_bits(), x.to_bits());
        tally.same("curve", at, probe::probe_wave_curve(NUMBERS, mode, x), oracle::curve(mode, x));
        tally.same("integral", at, probe::probe_wave_integral(NUMBERS, mode, x), oracle::integral(mode, x));
        tally.same("drive", at, probe::probe_drive(mode, a), oracle::drive(mode, a));
        tally.same("distort", at, probe::probe_distort(NUMBERS, mode, a, x), oracle::distort(mode, a, x));
        tally.same("cutoff_harmonic", at, probe::probe_cutoff_harmonic(mode, a), oracle::cutoff_harmonic(mode, a));
        tally.same("damping", at, probe::probe_damping(a), oracle::damping(a));
    };
    for mode in 0..70 {
        for (i, bits) in EDGES.into_iter().flat_map(|b| [b, b | 1 << 31]).enumerate() {
            check(mode, edge(i as u32 * 0x0700 + i as u32), f32::from_bits(bits));
        }
    }
    for _ in 0..count / 6 {
        let (m, a) = (mode(&mut g), amount(&mut g));
        check(m, a, any(&mut g));
    }
}

fn filter(count: u64, tally: &mut Tally) {
    let mut g = tally.generator(0x9e37_79b9);
    for i in 0..count {
        let mode = if i % 8 == 7 { g.draw() % 70 } else { 17 + (i % 2) as u32 };
        let (harmonic, increment) = if i / 2 % 2 == 0 {
            (oracle::cutoff_harmonic(mode, unit(&mut g)), unit(&mut g) / 8.0)
        } else {
            (any(&mut g), any(&mut g))
        };
        let k = if i % 3 == 0 { any(&mut g) } else { oracle::damping(unit(&mut g)) };
        let x = any(&mut g);
        let state = Svf { ic1: any(&mut g), ic2: any(&mut g) };
        let got = probe::probe_filter(NUMBERS, mode, harmonic, increment, k, x, state);
        same(tally, got, oracle::filter(mode, harmonic, increment, k, x, pair(state)), || {
            format!("filter, mode {mode}, {harmonic:e}, {increment:e}, {k:e}, {x:e}, {state:?}")
        });
    }
}

/// A last input around 1 % off `driven`, to within a step of either side.
fn beside(g: &mut Generator, driven: f32) -> f32 {
    let scale = driven.abs().max(1.0);
    let off = match g.draw() >> 8 & 7 {
        0 => 0.0,
        1 => 0.01,
        2 => -0.01,
        3 => 1.0 / 0.99 - 1.0,
        4 => 1.0 - 1.0 / 0.99,
        5 => 0.0101,
        6 => -0.0099,
        _ => (unit(g) - 0.5) * 0.06,
    };
    let last = driven + scale * off;
    let step = (g.draw() >> 8) % 7;
    if last.is_finite() && step > 2 {
        // two steps down to one step up
        f32::from_bits(last.to_bits().wrapping_add(step).wrapping_sub(5))
    } else {
        last
    }
}

/// Distortions by the antiderivative method: inputs just apart, just together and equal, the edges by
/// the edges, and any.
fn distort_smooth(count: u64, tally: &mut Tally) {
    let mut g = tally.generator(0x85eb_ca6b);
    for i in 0..count {
        let m = mode(&mut g);
        let a = if i % 2 == 0 { unit(&mut g) } else { amount(&mut g) };
        let x = if i % 3 == 0 { unit(&mut g) * 4.0 - 2.0 } else { any(&mut g) };
        let driven = if m == 28 { x } else { x * oracle::drive(m, a) };
        let last = match i / 4 % 3 {
            0 => beside(&mut g, driven),
            1 => edge(g.draw()),
            _ => any(&mut g),
        };
        let area = if i / 16 % 4 == 0 { any(&mut g) } else { oracle::integral(m, last) };
        let state = Svf { ic1: last, ic2: area };
        let got = probe::probe_distort_smooth(NUMBERS, m, a, x, state);
        same(tally, got, oracle::distort_smooth(m, a, x, pair(state)), || {
            format!("distort_smooth, mode {m}, {a:e}, {x:e}, {state:?}")
        });
    }
}

/// How many samples a sequence has.
const LENGTH: u64 = 256;

/// The amount that a run makes of a percentage.
fn amount_of(percent: f32) -> f32 {
    ruled::api::lanes::clamp(percent, 0.0, 100.0) * 0.01
}

fn slot_of(mode: u32, case: &Case) -> WaveSlot {
    WaveSlot {
        mode,
        amount: amount_of(case.percent),
        character: case.character,
        source: case.source,
        increment: case.increment(),
    }
}

/// Sequences through one slot of every mode, against the oracle's run, every sample with a case of its
/// own. A mode whose source is the oscillator itself reads the sample.
fn slots(count: u64, tally: &mut Tally) {
    let mut g = tally.generator(0xc2b2_ae35);
    for i in 0..count / LENGTH {
        let m = match i % 4 {
            0 => (i / 4 % 70) as u32,
            1 => 58 + (i / 4 % 12) as u32,
            _ => 17 + (i / 2 % 16) as u32,
        };
        let own = ruled::api::source(m) == 7;
        let is_wild = i / 5 % 2 == 1;
        let mut case = Case::start();
        let mut state = Svf { ic1: 0.0, ic2: 0.0 };
        for _ in 0..LENGTH {
            case = case.next(&mut g, is_wild);
            if let Some(fresh) = case.fresh {
                state = Svf { ic1: fresh.ic1, ic2: fresh.ic2 };
            }
            let mut slot = slot_of(m, &case);
            if own {
                slot.source = case.source.map(|_| case.x);
            }
            let got = probe::shape(&slot, case.x, state);
            same(tally, got, case.slot(m, pair(state)), || {
                format!("slot of mode {m}, {case:x?}, {state:?}")
            });
            state = got.state;
        }
    }
}

/// The lengths of a run: samples, the room for them, and the state's cells.
const LENGTHS: [[usize; 3]; 8] = [
    [256, 256, 2],
    [256, 40, 2],
    [40, 256, 3],
    [1, 1, 2],
    [0, 64, 2],
    [64, 0, 4],
    [64, 64, 1],
    [64, 64, 0],
];

/// Runs of one slot over a sequence of samples.
fn runs(count: u64, tally: &mut Tally) {
    let mut g = tally.generator(0x27d4_eb2f);
    for i in 0..count / LENGTH {
        let m = match i % 4 {
            0 => [58, 64, 5, 0][(i / 4 % 4) as usize],
            _ => 17 + (g.draw() >> 8) % 16,
        };
        let is_wild = i / 2 % 4 == 3;
        let [n, room, cells] = LENGTHS[if i % 4 == 3 { (i / 4 % 8) as usize } else { 0 }];
        let first = Case::start().next(&mut g, is_wild);
        let mut case = first;
        let xs: Vec<f32> = (0..n)
            .map(|_| {
                case = case.next(&mut g, is_wild);
                case.x
            })
            .collect();
        // one cell more, which the run has to leave alone
        let mut out = vec![f32::from_bits(GUARD); room + 1];
        let mut state: Vec<f32> = (0..=cells).map(|_| if is_wild { any(&mut g) } else { unit(&mut g) }).collect();
        let before = state.clone();
        let done = if cells < 2 { 0 } else { n.min(room) };
        let got = probe::shape_run(&slot_of(m, &first), &xs, &mut out[..room], &mut state[..cells]);
        tally.word("count of a run", m, got as u64, done as u64);
        let left = out[done..].iter().all(|x| x.to_bits() == GUARD);
        tally.case(left, || format!("cells past a run of mode {m}"));
        let kept = if cells < 2 { 0 } else { 2 };
        let left = state[kept..].iter().zip(&before[kept..]).all(|(x, y)| x.to_bits() == y.to_bits());
        tally.case(left, || format!("cells past the state of mode {m}"));
        if cells < 2 {
            continue;
        }
        let mut want = Pair { ic1: before[0], ic2: before[1] };
        for (&x, &y) in xs.iter().zip(&out[..done]) {
            let (shaped, after) = Case { x, ..first }.slot(m, want);
            want = after;
            tally.same("sample of a run", (m, x.to_bits()), y, shaped);
        }
        tally.same("first state of a run", m, state[0], want.ic1);
        tally.same("second state of a run", m, state[1], want.ic2);
    }
}

/// About `count` cases of each part.
pub const PARTS: &[Part] = &[
    ("curves, integrals, drives", leaves),
    ("filters", filter),
    ("distortions", distort_smooth),
    ("slots", slots),
    ("runs of a slot", runs),
];
