//! The phase side against the oracle: mode facts, the curve, stretch, and read lists of two slots.

use crate::cycle;
use crate::probe::{self, LaneReads, Slots};
use crate::tally::{Part, Tally};
use programs::phases::{Case, REFUSED, slope_table};
use programs::{Generator, pattern, tame};
use ruled::api::{self, curve as curves, lanes, phase as oracle};
use ruled::osc::{self, Wave};
use std::fmt::{Debug, Formatter};

pub const GUARD: u32 = 0x1234_5678;

/// The floats that a rule may end at.
const SPECIAL: [f32; 24] = [
    0.0,
    -0.0,
    1e-45,
    -1e-45,
    f32::MIN_POSITIVE,
    1e-10,
    5.960_464_5e-8,
    0.000_976_562_5,
    0.25,
    0.5,
    -0.5,
    0.75,
    0.999_999_94,
    1.0,
    1.000_000_1,
    -1.0,
    2.0,
    16.0,
    16_777_216.0,
    f32::MAX,
    f32::MIN,
    f32::INFINITY,
    f32::NEG_INFINITY,
    f32::NAN,
];

/// A float by the draw: special, from 0 to 1, near 1, or any pattern.
pub fn float(g: &mut Generator) -> f32 {
    let how = g.draw();
    let draw = g.draw();
    match how >> 30 {
        0 => SPECIAL[draw as usize % SPECIAL.len()],
        1 => (draw >> 8) as f32 / 16_777_216.0,
        2 => f32::from_bits(tame(draw)),
        _ => f32::from_bits(draw),
    }
}

const ZEROS: [f32; 8] = [-0.0, 0.0, -0.0, 1.0, -0.0, -1.0, -0.0, 1e-45];

fn table(g: &mut Generator, entry: fn(&mut Generator) -> f32) -> Vec<f32> {
    (0..1025).map(|_| entry(g)).collect()
}

/// Tables of every kind: drawn from 0 to 1, the identity, the gentle ones of a seed, zeros of both
/// signs with ones among them, special floats, any patterns, and floats of every kind.
pub fn tables(seed: u32) -> Vec<Vec<f32>> {
    let mut g = Generator(seed | 1);
    vec![
        table(&mut g, |g| (g.draw() >> 8) as f32 / 16_777_216.0),
        (0..1025u16).map(|i| f32::from(i) / 1024.0).collect(),
        slope_table(seed & !1),
        slope_table(seed | 1),
        table(&mut g, |g| ZEROS[(g.draw() >> 29) as usize]),
        table(&mut g, |g| SPECIAL[g.draw() as usize % SPECIAL.len()]),
        table(&mut g, |g| f32::from_bits(g.draw())),
        table(&mut g, float),
    ]
}

type Fact = (&'static str, fn(u32) -> u32, fn(u32) -> u32);

const FACTS: [Fact; 6] = [
    ("source", |m| probe::probe_source(m), api::source),
    ("fm_type", |m| probe::probe_fm_type(m), api::fm_type),
    ("modulated", |m| probe::probe_modulated(m), api::modulated),
    ("stage", |m| probe::probe_stage(m), api::stage),
    ("oversampled", |m| probe::probe_oversampled(m), |m| u32::from(api::oversampled(m))),
    ("distortion", |m| probe::probe_distortion(m), |m| u32::from(api::distortion(m))),
];

fn facts(count: u64, tally: &mut Tally) {
    let mut g = tally.generator(0x2545_f491);
    let random: Vec<u32> = (0..count / 64).map(|_| g.draw()).collect();
    for (name, got, want) in FACTS {
        for mode in (0..=75).chain([0x8000_0000, u32::MAX]).chain(random.iter().copied()) {
            let want = if mode < 70 { want(mode) } else { REFUSED };
            tally.word(name, mode, u64::from(got(mode)), u64::from(want));
        }
    }
}

/// `lookup` and the curve's value at -0 where the table starts with -0: they differ in the sign.
fn at_minus_zero(tally: &mut Tally) {
    for (next, value, lookup) in [(1.0, -0.0, 0.0), (-1.0, 0.0, -0.0)] {
        let mut table = vec![0.25; 1025];
        table[..2].copy_from_slice(&[-0.0, next]);
        tally.same("curve value at -0", next, probe::curve_value(&table, -0.0).value, value);
        tally.same("lookup at -0", next, probe::lookup(&table, -0.0), lookup);
        tally.same("the oracle's curve value at -0", next, curves::value(&curves::lent(&table), -0.0), value);
        tally.same("the oracle's lookup at -0", next, lanes::lookup(&table, 1024, -0.0), lookup);
    }
}

fn curve(count: u64, tally: &mut Tally) {
    let mut g = tally.generator(0x9e37_79b9);
    at_minus_zero(tally);
    for _ in 0..(count / 4096).max(1) {
        let seed = g.draw();
        for (kind, mut table) in tables(seed).into_iter().enumerate() {
            let at = (seed, kind);
            // one below, none past, and some past the entries that are read
            for x in [0.5, float(&mut g)] {
                let short = probe::curve_value(&table[..1024], x);
                tally.word("short curve value", at, u64::from(short.number), 7);
                tally.same("short curve value", at, short.value, 0.0);
            }
            let short = probe::curve_steepest(&table[..1024]);
            tally.word("short curve steepest", at, u64::from(short.number), 7);
            tally.same("short curve steepest", at, short.value, 0.0);

            let lent = curves::lent(&table);
            if seed.is_multiple_of(2) {
                table.extend((0..seed >> 22).map(|_| f32::from_bits(g.draw())));
            }
            let got = probe::curve_steepest(&table);
            tally.word("curve steepest", at, u64::from(got.number), 0);
            tally.same("curve steepest", at, got.value, curves::steepest(&lent));
            let xs = SPECIAL.into_iter().chain((0..=1024u16).step_by(93).map(|i| f32::from(i) / 1024.0));
            let random: Vec<f32> = (0..64).map(|_| float(&mut g)).collect();
            for x in xs.chain(random) {
                let got = probe::curve_value(&table, x);
                tally.word("curve value", (at, x.to_bits()), u64::from(got.number), 0);
                tally.same("curve value", (at, x.to_bits()), got.value, curves::value(&lent, x));
            }
        }
    }
    let empty = probe::curve_value(&[], 0.5);
    tally.word("empty curve", 0, u64::from(empty.number), 7);
}

fn stretch(count: u64, tally: &mut Tally) {
    let mut g = tally.generator(0x85eb_ca6b);
    let mut check = |mode: u32, amount: f32, steepest: f32| {
        let got = probe::probe_stretch(mode, amount, steepest);
        let (number, want) = if mode < 70 { (0, oracle::stretch(mode, amount, steepest)) } else { (1, 0.0) };
        let input = (mode, amount.to_bits(), steepest.to_bits());
        tally.word("stretch's number", input, u64::from(got.number), number);
        tally.same("stretch", input, got.value, want);
    };
    for mode in (0..=75).chain([u32::MAX]) {
        for amount in SPECIAL.into_iter().chain((0..=64u16).map(|i| f32::from(i) / 64.0)) {
            for steepest in SPECIAL.into_iter().chain([1.5, 2.5, 15.9]) {
                check(mode, amount, steepest);
            }
        }
    }
    for i in 0..count {
        let mode = if i % 64 == 0 { g.draw() } else { g.draw() % 17 };
        let (amount, steepest) = (float(&mut g), float(&mut g));
        check(mode, amount, steepest);
    }
}

pub fn slots(modes: [u32; 2], case: &Case) -> Slots {
    Slots {
        mode0: modes[0],
        mode1: modes[1],
        character0: case.character[0],
        character1: case.character[1],
        amount0: case.amount[0],
        amount1: case.amount[1],
    }
}

/// A read list as words, every NaN's pattern the same.
pub fn nine(reads: &LaneReads) -> [u64; 9] {
    let [a, b, c, d] = reads.phase.map(u64::from);
    let [e, f, g, h] = reads.gain.map(|x| u64::from(pattern(x)));
    [a, b, c, d, e, f, g, h, reads.count as u64]
}

/// Two modes and a case, its floats as patterns, for what is printed.
struct Shown<'a>([u32; 2], &'a Case);

impl Debug for Shown<'_> {
    fn fmt(&self, out: &mut Formatter<'_>) -> std::fmt::Result {
        let Self(modes, case) = self;
        let bits = f32::to_bits;
        write!(
            out,
            "modes {modes:?} amounts {:08x?} characters {:08x?} half {:08x} inner {:08x} word {:08x}",
            case.amount.map(bits),
            case.character.map(bits),
            bits(case.half),
            bits(case.inner),
            case.word
        )
    }
}

/// Modes of slot 0 and slot 1: in turn all pairs, and all pairs of those that map, Off among them.
fn pair(i: u64) -> [u32; 2] {
    let n = if i.is_multiple_of(2) { 70 } else { 17 };
    let at = i / 4 % (n * n);
    [(at % n) as u32, (at / n) as u32]
}

/// Every other two cases are wild; the tables change after all pairs.
fn apply(count: u64, tally: &mut Tally) {
    let tables = tables(tally.seed(0x5eed));
    let mut g = tally.generator(0xc2b2_ae35);
    for i in 0..count {
        let modes = pair(i);
        let kind = (i / (4 * 4900)) as usize % tables.len();
        let curve = &tables[kind];
        let case = Case::draw(&mut g, i / 2 % 2 == 1);
        let got = nine(&probe::apply(curve, slots(modes, &case), case.half, case.inner, case.word));
        let want = programs::phases::nine(&case.reads(modes, curve)).map(u64::from);
        tally.case(got == want, || {
            format!("reads of {:?} curve {kind}: {got:08x?}, the oracle {want:08x?}", Shown(modes, &case))
        });
        if i % 64 == 0 {
            let short = &curve[..(i / 64 % 1025) as usize];
            let got = nine(&probe::apply(short, slots(modes, &case), case.half, case.inner, case.word));
            tally.case(got == [0; 9], || format!("reads of {:?} and a short curve: {got:08x?}", Shown(modes, &case)));
        }
    }
}

/// The lengths of a run: words, and the room for samples.
const LENGTHS: [(usize, usize); 6] = [(64, 64), (64, 40), (40, 64), (1, 1), (0, 64), (64, 0)];

/// Sums of reads, of cycles from -1 to 1, of any floats and of special neighbours.
fn sums(count: u64, tally: &mut Tally) {
    let tables = tables(tally.seed(0xcafe));
    let mut g = tally.generator(0x27d4_eb2f);
    let cycles = [
        cycle::guarded(|_| (g.draw() >> 8) as f32 / 8_388_608.0 - 1.0),
        cycle::guarded(|_| float(&mut g)),
        cycle::special(1, &mut g),
    ];
    for i in 0..count / 64 {
        let modes = pair(i);
        let is_wild = i / 2 % 2 == 1;
        let curve = &tables[(i / (4 * 289)) as usize % tables.len()];
        // the entry past the cycle's is not read
        let cycle = &cycles[(i / 5 % 3) as usize];
        let cycle = &cycle[..2048 + (i / 15 % 2) as usize];
        let case = Case::draw(&mut g, is_wild);
        let (n, room) = LENGTHS[if i % 8 == 7 { (i / 8 % 6) as usize } else { 0 }];
        let words: Vec<u32> = (0..n).map(|_| Case::draw(&mut g, is_wild).word).collect();
        let mut run = |curve: &[f32], cycle: &[f32], done: usize| {
            // one cell more, which the run has to leave alone
            let mut out = vec![f32::from_bits(GUARD); room + 1];
            let n = probe::reads_run(curve, cycle, slots(modes, &case), case.half, case.inner, &words, &mut out[..room]);
            tally.word("count of a run", Shown(modes, &case), n as u64, done as u64);
            let left = out[done..].iter().all(|x| x.to_bits() == GUARD);
            tally.case(left, || format!("cells past a run of {:?}", Shown(modes, &case)));
            for (&word, &got) in words.iter().zip(&out[..done]) {
                let case = Case { word, ..case };
                let list = case.reads(modes, curve);
                tally.same("sum of reads", Shown(modes, &case), got, osc::read(Wave(cycle), &list));
                tally.same_as("the model", "sum of reads", Shown(modes, &case), got, cycle::modelled_sum(cycle, &list));
            }
        };
        run(curve, cycle, n.min(room));
        if i % 16 == 0 {
            run(&curve[..1024], cycle, 0);
            run(curve, &cycle[..2047], 0);
            run(&[], &[], 0);
        }
    }
}

/// About `count` read lists and as many of each other part as its inputs ask for.
pub const PARTS: &[Part] = &[
    ("mode facts", facts),
    ("curve", curve),
    ("stretch", stretch),
    ("read lists of two slots", apply),
    ("sums of reads", sums),
];
