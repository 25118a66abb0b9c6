//! The leaves, on floats near 1 and on any bit pattern.

use super::clock::{INPUTS, Times, best};
use super::markdown::{hundredths, table};
use crate::probe::{self, NUMBERS};
use programs::{Generator, lookup_table, tame};
use ruled::api::lanes as oracle;
use std::hint::black_box;

/// The leaves' names and times.
#[derive(Default)]
struct Rows(Vec<(&'static str, Times)>);

impl Rows {
    fn add(&mut self, name: &'static str, here: impl FnMut(), rust: impl FnMut()) {
        self.0.push((name, best(here, rust)));
    }
}

/// The oracle's leaf behind a call of the same kind as the library's.
macro_rules! behind {
    ($f:path, ($($a:ident: $t:ty),*) -> $r:ty) => {{
        #[inline(never)]
        extern "C" fn call($($a: $t),*) -> $r { $f($($a),*) }
        call
    }};
}

struct Inputs {
    floats: Vec<f32>,
    words: Vec<u32>,
}

fn inputs(is_tame: bool) -> Inputs {
    let mut g = Generator(0x9e37_79b9);
    let words: Vec<u32> = (0..INPUTS + 2).map(|_| g.draw()).collect();
    let float = |&w: &u32| f32::from_bits(if is_tame { tame(w) } else { w });
    Inputs {
        floats: words.iter().map(float).collect(),
        words,
    }
}

macro_rules! floats {
    ($rows:expr, $xs:expr, $name:literal, $got:expr, $want:path) => {{
        let want = black_box(behind!($want, (x: f32) -> f32));
        $rows.add(
            $name,
            || for &x in &$xs[..INPUTS] { black_box($got(black_box(x))); },
            || for &x in &$xs[..INPUTS] { black_box(want(black_box(x))); },
        );
    }};
}

macro_rules! triples {
    ($rows:expr, $xs:expr, $name:literal, $got:expr, $want:expr) => {{
        let want = black_box($want);
        $rows.add(
            $name,
            || for x in $xs.windows(3) { black_box($got(black_box(x[0]), x[1], x[2])); },
            || for x in $xs.windows(3) { black_box(want(black_box(x[0]), x[1], x[2])); },
        );
    }};
}

fn unary(rows: &mut Rows, xs: &[f32]) {
    floats!(rows, xs, "abs", probe::probe_abs, oracle::abs);
    floats!(rows, xs, "floor", probe::probe_floor, oracle::floor);
    floats!(rows, xs, "sign_bit", probe::probe_sign_bit, oracle::sign_bit);
    floats!(rows, xs, "above", probe::probe_above, oracle::above);
    floats!(rows, xs, "sign", probe::probe_sign, oracle::sign);
    floats!(rows, xs, "smoothstep", probe::probe_smoothstep, oracle::smoothstep);
    floats!(rows, xs, "ln", probe::probe_ln, oracle::ln);
    floats!(rows, xs, "sin_cycles", |x| probe::probe_sin_cycles(NUMBERS, x), oracle::sin_cycles);
    floats!(rows, xs, "cos_cycles", |x| probe::probe_cos_cycles(NUMBERS, x), oracle::cos_cycles);
    floats!(rows, xs, "tan", |x| probe::probe_tan(NUMBERS, x), oracle::tan);
    floats!(rows, xs, "atan *", |x| probe::probe_atan(NUMBERS, x), oracle::atan);
    floats!(rows, xs, "sqrt *", probe::probe_sqrt, oracle::sqrt);
}

fn several(rows: &mut Rows, xs: &[f32], words: &[u32]) {
    triples!(rows, xs, "min", |x, y, _| probe::probe_min(x, y), {
        #[inline(never)]
        extern "C" fn f(x: f32, y: f32, _: f32) -> f32 { oracle::min(x, y) }
        f
    });
    triples!(rows, xs, "max", |x, y, _| probe::probe_max(x, y), {
        #[inline(never)]
        extern "C" fn f(x: f32, y: f32, _: f32) -> f32 { oracle::max(x, y) }
        f
    });
    triples!(rows, xs, "mul_add", |x, y, z| probe::probe_mul_add(x, y, z), behind!(oracle::mul_add, (x: f32, y: f32, z: f32) -> f32));
    triples!(rows, xs, "pick", |x, y, z| probe::probe_pick(x, y, z), behind!(oracle::pick, (x: f32, y: f32, z: f32) -> f32));
    triples!(rows, xs, "clamp", |x, y, z| probe::probe_clamp(x, y, z), behind!(oracle::clamp, (x: f32, y: f32, z: f32) -> f32));
    triples!(rows, words, "add_words", |a, b, _| probe::probe_add_words(a, b), {
        #[inline(never)]
        extern "C" fn f(a: u32, b: u32, _: u32) -> u32 { oracle::add_words(a, b) }
        f
    });
    triples!(rows, words, "pick_word", |m: u32, a, b| probe::probe_pick_word((m % 2) as f32, a, b), {
        #[inline(never)]
        extern "C" fn f(m: u32, a: u32, b: u32) -> u32 { oracle::pick_word((m % 2) as f32, a, b) }
        f
    });
}

fn words(rows: &mut Rows, xs: &[f32], words: &[u32]) {
    macro_rules! casts {
        ($from:expr, $name:literal, $got:expr, $want:path, $t:ty => $r:ty) => {{
            let want = black_box(behind!($want, (x: $t) -> $r));
            rows.add(
                $name,
                || for &x in &$from[..INPUTS] { black_box($got(black_box(x))); },
                || for &x in &$from[..INPUTS] { black_box(want(black_box(x))); },
            );
        }};
    }
    casts!(xs, "to_word", |x| probe::probe_to_word(x), oracle::to_word, f32 => u32);
    casts!(xs, "cast_word", |x| probe::probe_cast_word(x), oracle::cast_word, f32 => u32);
    casts!(xs, "cast_usize", |x| probe::probe_cast_usize(x), oracle::cast_index, f32 => usize);
    casts!(words, "signed", |x| probe::probe_signed(x), oracle::signed, u32 => f32);
    casts!(words, "nearest_u32", |x| probe::probe_nearest_u32(x), oracle::nearest_u32, u32 => f32);
    casts!(words, "nearest_i32", |x| probe::probe_nearest_i32(x), oracle::nearest_i32, u32 => f32);
    let table = lookup_table();
    rows.add(
        "lookup",
        || for &x in &xs[..INPUTS] { black_box(probe::lookup(&table, black_box(x))); },
        || {
            #[inline(never)]
            fn call(table: &[f32], x: f32) -> f32 { oracle::lookup(table, 1024, x) }
            for &x in &xs[..INPUTS] { black_box(call(&table, black_box(x))); }
        },
    );
}

/// Over slices, since the library's table of powers is made once for a run.
fn powers(rows: &mut Rows, xs: &[f32]) {
    let leaves: [(&str, fn(f32) -> f32); 4] = [
        ("exp2 *", oracle::exp2),
        ("tanh *", oracle::tanh),
        ("exp *", oracle::exp),
        ("ln_cosh *", oracle::ln_cosh),
    ];
    for (leaf, (name, want)) in leaves.into_iter().enumerate() {
        let want = black_box(want);
        let mut out = vec![0.0; INPUTS];
        let mut other = vec![0.0; INPUTS];
        rows.add(
            name,
            || { black_box(probe::powers_run(leaf as u32, black_box(&xs[..INPUTS]), &mut out)); },
            || {
                for (to, &x) in other.iter_mut().zip(&xs[..INPUTS]) { *to = want(black_box(x)); }
                black_box(&other);
            },
        );
    }
}

fn measured(is_tame: bool) -> Rows {
    let all = inputs(is_tame);
    let mut rows = Rows::default();
    unary(&mut rows, &all.floats);
    several(&mut rows, &all.floats, &all.words);
    words(&mut rows, &all.floats, &all.words);
    powers(&mut rows, &all.floats);
    rows
}

pub fn print() {
    let [near, any] = [true, false].map(measured);
    let rows = near.0.into_iter().zip(any.0).map(|((name, near), (_, any))| {
        let numbers = [near.here, near.rust, near.ratio(), any.ratio()];
        [name.to_string()].into_iter().chain(numbers.map(hundredths)).collect()
    });
    table(
        "Leaves, on floats near 1 (* calls sqrt or exp2), a call:",
        &["leaf", "here", "Rust", "ratio", "ratio on any pattern"],
        rows,
    );
}
