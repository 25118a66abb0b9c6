//! The leaves on bit patterns spread over all of 2^32, against the oracle.

use crate::probe::{self, NUMBERS};
use crate::tally::{Part, Tally};
use programs::lookup_table;
use ruled::api::lanes as oracle;

/// An odd step, so that `count` patterns are spread over all of them; the first is the tally's seed.
pub fn patterns(count: u64, tally: &Tally) -> impl Iterator<Item = u32> + use<> {
    let step = ((1u64 << 32) / count.max(1)) | 1;
    let first = u64::from(tally.seed(0));
    (0..count).map(move |i| (first + i * step) as u32)
}

type Unary = (&'static str, fn(f32) -> f32, fn(f32) -> f32);

const UNARY: [Unary; 12] = [
    ("abs", |x| probe::probe_abs(x), oracle::abs),
    ("sqrt", |x| probe::probe_sqrt(x), oracle::sqrt),
    ("floor", |x| probe::probe_floor(x), oracle::floor),
    ("sign_bit", |x| probe::probe_sign_bit(x), oracle::sign_bit),
    ("above", |x| probe::probe_above(x), oracle::above),
    ("sign", |x| probe::probe_sign(x), oracle::sign),
    ("smoothstep", |x| probe::probe_smoothstep(x), oracle::smoothstep),
    ("ln", |x| probe::probe_ln(x), oracle::ln),
    ("sin_cycles", |x| probe::probe_sin_cycles(NUMBERS, x), oracle::sin_cycles),
    ("cos_cycles", |x| probe::probe_cos_cycles(NUMBERS, x), oracle::cos_cycles),
    ("atan", |x| probe::probe_atan(NUMBERS, x), oracle::atan),
    ("tan", |x| probe::probe_tan(NUMBERS, x), oracle::tan),
];

/// The leaves that the table of powers is lent to, by their numbers in `probe_powers_run`.
const POWERS: [(&str, fn(f32) -> f32); 4] = [
    ("exp2", oracle::exp2),
    ("tanh", oracle::tanh),
    ("exp", oracle::exp),
    ("ln_cosh", oracle::ln_cosh),
];

fn unary(count: u64, tally: &mut Tally) {
    for (name, got, want) in UNARY {
        for p in patterns(count, tally) {
            let x = f32::from_bits(p);
            tally.same(name, p, got(x), want(x));
        }
    }
}

fn powers(count: u64, tally: &mut Tally) {
    for (leaf, (name, want)) in POWERS.into_iter().enumerate() {
        let mut all = patterns(count, tally);
        loop {
            let xs: Vec<f32> = all.by_ref().take(4096).map(f32::from_bits).collect();
            if xs.is_empty() {
                break;
            }
            // one cell more, which the run has to leave alone
            let mut out = vec![f32::from_bits(0x1234_5678); xs.len() + 1];
            let n = probe::powers_run(leaf as u32, &xs, &mut out);
            tally.word("count", leaf, n as u64, xs.len() as u64);
            tally.word("guard", leaf, u64::from(out[xs.len()].to_bits()), 0x1234_5678);
            for (&x, &got) in xs.iter().zip(&out) {
                tally.same(name, x.to_bits(), got, want(x));
            }
        }
    }
}

fn casts(count: u64, tally: &mut Tally) {
    for p in patterns(count, tally) {
        let x = f32::from_bits(p);
        tally.word("any", p, u64::from(probe::probe_any(x)), u64::from(oracle::any(x)));
        tally.word("to_word", p, u64::from(probe::probe_to_word(x)), u64::from(oracle::to_word(x)));
        tally.word("cast_word", p, u64::from(probe::probe_cast_word(x)), u64::from(oracle::cast_word(x)));
        tally.word("cast_usize", p, probe::probe_cast_usize(x) as u64, oracle::cast_index(x) as u64);
        tally.same("signed", p, probe::probe_signed(p), oracle::signed(p));
        tally.same("nearest_u32", p, probe::probe_nearest_u32(p), oracle::nearest_u32(p));
        tally.same("nearest_i32", p, probe::probe_nearest_i32(p), oracle::nearest_i32(p));
        let got = probe::probe_split(x);
        let want = oracle::split(x);
        tally.same("split exponent", p, got.exponent, want.0);
        tally.same("split mantissa", p, got.mantissa, want.1);
    }
}

/// The operations of several inputs, and the table, at random ones: raw patterns, and every other
/// time floats near 1 and a mask of 0 or 1.
fn several(count: u64, tally: &mut Tally) {
    let table = lookup_table();
    let mut g = tally.generator(0x2545_f491);
    for i in 0..count {
        let raw = [g.draw(), g.draw(), g.draw()];
        let tame = i % 2 == 0;
        let float = |w: u32| f32::from_bits(if tame { programs::tame(w) } else { w });
        let [x, y, z] = raw.map(float);
        let mask = if tame { (raw[0] % 2) as f32 } else { x };
        tally.same("min", raw, probe::probe_min(x, y), oracle::min(x, y));
        tally.same("max", raw, probe::probe_max(x, y), oracle::max(x, y));
        tally.same("mul_add", raw, probe::probe_mul_add(x, y, z), oracle::mul_add(x, y, z));
        tally.same("pick", raw, probe::probe_pick(mask, y, z), oracle::pick(mask, y, z));
        tally.same("clamp", raw, probe::probe_clamp(x, y, z), oracle::clamp(x, y, z));
        tally.same("lookup", raw, probe::lookup(&table, x), oracle::lookup(&table, 1024, x));
        let [a, b, _] = raw;
        tally.word("add_words", raw, u64::from(probe::probe_add_words(a, b)), u64::from(oracle::add_words(a, b)));
        tally.word("pick_word", raw, u64::from(probe::probe_pick_word(mask, a, b)), u64::from(oracle::pick_word(mask, a, b)));
    }
    tally.same("short table", 1024, probe::lookup(&table[..1024], 0.5), 0.0);
}

/// About `count` patterns for each leaf.
pub const PARTS: &[Part] = &[
    ("unary leaves", unary),
    ("leaves of the table of powers", powers),
    ("casts and words", casts),
    ("leaves of several inputs", several),
];
