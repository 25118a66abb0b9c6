//! Document 01's values to hold on to, values of the cycle's read and of
//! pictures, and the run of a range against the crate's own render and
//! against its cuts.

use ruled::api::halfband::{Design, designs, process};
use ruled::api::wave::{Pair, curve, distort_smooth, integral};
use ruled::api::{self, Card, Lent, Rows, Settings, State, lanes, phase};
use ruled::osc::Wave;

const ODD_EVEN: u32 = 16;
const LOW_PASS: u32 = 17;
const HIGH_PASS: u32 = 18;
const HARD_CLIP: u32 = 21;
const FOLD: u32 = 24;
const AM_1: u32 = 58;

/// The identity's table.
fn identity() -> Vec<f32> {
    (0..=1024).map(|i| i as f32 / 1024.0).collect()
}

#[test]
fn mode_totals() {
    let count = |f: &dyn Fn(u32) -> bool| (0..70).filter(|&m| f(m)).count();
    assert_eq!(count(&|m| api::stage(m) == 0), 1);
    assert_eq!(count(&|m| api::stage(m) == 1), 41);
    assert_eq!(count(&|m| api::stage(m) == 2), 28);
    assert_eq!(count(&api::oversampled), 66);
    assert_eq!(count(&api::distortion), 14);
}

#[test]
fn odd_even() {
    let identity = identity();
    let slot = phase::Slot {
        mode: ODD_EVEN,
        character: 0.0,
        curve: &identity,
    };
    let list = phase::apply(&slot, 0.0, 0.0, &phase::start(7));
    assert_eq!((list.count, list.gain[0], list.gain[1]), (2, 0.5, -0.5));
    assert_eq!(list.word[1], 7 + (1 << 31));
    let list = phase::apply(&slot, 0.5, 0.0, &phase::start(7));
    assert_eq!((list.count, list.gain[0], list.gain[1]), (2, 1.0, 0.0));
}

#[test]
fn waves() {
    assert_eq!(integral(HARD_CLIP, 2.0), 1.5);
    assert_eq!(integral(HARD_CLIP, 0.5), 0.125);
    assert_eq!([1.0, 2.0, 3.0].map(|x| curve(FOLD, x)), [1.0, 0.0, -1.0]);
    let zero = Pair { ic1: 0.0, ic2: 0.0 };
    let after = Pair { ic1: 2.0, ic2: 1.5 };
    assert_eq!(distort_smooth(HARD_CLIP, 0.0, 2.0, zero), (0.75, after));
}

#[test]
fn one_stage() {
    let mut coefs = [0.0; 12];
    coefs[0] = 0.5;
    let mut buffer = [1.0; 4];
    let mut state = [0.0; 72];
    process(
        &[Design { coefs, count: 1 }; 3],
        2,
        1,
        1,
        2,
        &mut buffer,
        &mut state,
    );
    assert_eq!(buffer[..2], [0.75, 1.125]);
    assert_eq!(state[..2], [1.0, 1.25]);
}

#[test]
fn exp2() {
    assert_eq!([0.0, -1.0, -200.0].map(lanes::exp2), [1.0, 0.5, 0.0]);
    assert_eq!(lanes::exp2(0.5), 11_863_283.0 / 8_388_608.0);
    assert_eq!(lanes::exp2(128.0), f32::INFINITY);
    assert!(lanes::exp2(f32::NAN).is_nan());
}

#[test]
fn words() {
    assert_eq!(lanes::signed(0xC000_0000), -0.25);
    assert_eq!(phase::unit(0xC000_0000), 0.75);
}

/// What a cycle reads as at each word, in patterns, every NaN's the same. It
/// is lent longer than a cycle, and is NaN where no entry is set.
fn reads<const N: usize>(entries: &[(usize, f32)], words: [u32; N]) -> [u32; N] {
    let mut cycle = [f32::NAN; 2050];
    for &(at, entry) in entries {
        cycle[at] = entry;
    }
    words.map(|word| pattern(Wave(&cycle).read(word)))
}

fn pattern(x: f32) -> u32 {
    if x.is_nan() { f32::NAN } else { x }.to_bits()
}

/// The entry after 2,047 is entry 0, and no other is looked at.
#[test]
fn reads_between_entries() {
    let entries = [(0, 0.0), (1, 1.0), (2047, 8.0)];
    let values = [
        (0x0000_0000, 0.0),
        (0x0000_0001, 1.0 / 2_097_152.0),
        (0x0010_0000, 0.5),
        (0x001f_ffff, 2_097_151.0 / 2_097_152.0),
        (0x0020_0000, f32::NAN),
        (0xffdf_ffff, f32::NAN),
        (0xffe0_0000, 8.0),
        (0xfff0_0000, 4.0),
        (0xffff_ffff, 1.0 / 262_144.0),
    ];
    assert_eq!(
        reads(&entries, values.map(|v| v.0)),
        values.map(|v| pattern(v.1))
    );
    // Difference, product and sum round one by one. Product and sum in one
    // step would give beb33332, difference and product beb33334, and both
    // entries weighted beb33333.
    let rounded = reads(&[(0, -2.0), (1, 0.2)], [0x0018_0000]);
    assert_eq!(rounded, [0xbeb3_3330]);
}

/// At an entry the next one counts too: a -0 may lose its sign, and what is
/// infinite is multiplied by 0.
#[test]
fn reads_at_entries() {
    const INFINITE: f32 = f32::INFINITY;
    const NAN: f32 = f32::NAN;
    for (first, next, at_first, half_way) in [
        (0.3, 0.3, 0.3, 0.3),
        (-0.0, 1.0, 0.0, 0.5),
        (-0.0, 0.0, 0.0, 0.0),
        (-0.0, -0.0, 0.0, 0.0),
        (-0.0, -1.0, -0.0, -0.5),
        (0.0, -1.0, 0.0, -0.5),
        (3e38, 3e37, 3e38, 1.65e38),
        (3e38, -3e38, NAN, -INFINITE),
        (1.0, INFINITE, NAN, INFINITE),
        (1.0, -INFINITE, NAN, -INFINITE),
        (INFINITE, 1.0, NAN, NAN),
        (INFINITE, INFINITE, NAN, NAN),
        (1.0, NAN, NAN, NAN),
        (NAN, 1.0, NAN, NAN),
    ] {
        assert_eq!(
            reads(&[(0, first), (1, next)], [0, 0x0010_0000]),
            [at_first, half_way].map(pattern),
            "{first} and {next}"
        );
    }
}

#[test]
fn amounts_and_sources() {
    let identity = identity();
    let settings = Settings {
        modes: [AM_1, 0],
        characters: [0.0; 2],
        factor: 4,
        n: 1,
        active: 1,
        frames: 2,
        rate: 48_000,
    };
    let card = |source| {
        Card::new(
            &settings,
            &Lent {
                base: [&[120.0], &[0.0]],
                mods: [&[]; 2],
                sources: [source, &[]],
                curve: &identity,
            },
        )
    };
    let rising = card(&[0.0, 1.0]);
    assert_eq!(rising.amount(0, 0, 0, 0), 1.0);
    assert_eq!(rising.source(0, 1, 0, 0), 0.25);
    assert_eq!(rising.source(0, 5, 0, 0), 1.0);
    let state = State {
        pairs: &mut [0.0; 4],
        fm: &mut [0.0; 2],
        last: &mut [0.0],
    };
    let low = card(&[-1.0, -1.0]);
    assert_eq!(low.shape_at_lane(0, 0, 0, 0, 1.0, state), 0.0);
}

/// A picture of so many points with one mode and amount, slot 1 off.
fn picture(mode: u32, amount: f32, cycle: &[f32], points: usize) -> Vec<f32> {
    let mut picture = vec![f32::NAN; points];
    let (modes, amounts) = ([mode, 0], [amount, 0.0]);
    api::preview(modes, [0.0; 2], amounts, &identity(), cycle, &mut picture);
    picture
}

/// The crate works a point's word out in f64; it is the quotient of whole
/// numbers.
#[test]
fn words_of_points() {
    let mut words = 0;
    for len in 1..=4096u64 {
        for i in 0..len {
            let word = (i as f64 / len as f64 * ruled::CYCLE) as u64 as u32;
            assert_eq!(u64::from(word), (i << 32) / len, "point {i} of {len}");
            words += 1;
        }
    }
    assert_eq!(words, 8_390_656);
}

#[test]
fn pictures() {
    let rising: Vec<f32> = (0u16..2048).map(f32::from).collect();
    assert_eq!(picture(0, 0.0, &rising, 4), [0.0, 512.0, 1024.0, 1536.0]);
    assert_eq!(picture(0, 0.0, &rising, 3), [0.0, 682.6667, 1365.3334]);
    assert_eq!(picture(HARD_CLIP, 0.0, &[2.0; 2048], 5), [1.0; 5]);
    assert_eq!(picture(ODD_EVEN, 50.0, &rising, 2048), rising);
    assert_eq!(picture(AM_1, 50.0, &rising, 2048), rising);
    let one = [1.0; 2048];
    assert_eq!(picture(LOW_PASS, 0.0, &one, 256), [1.0; 256]);
    assert_eq!(picture(HIGH_PASS, 0.0, &one, 256), [0.0; 256]);
    assert!((picture(LOW_PASS, 0.0, &one, 1)[0] - 1.0).abs() < 0.007);
}

/// A point is the sum of its products from the first on, so that a -0 stays
/// unless +0 is added to it. An entry of -0 reads as such beside a lower one.
#[test]
fn zeros_of_pictures() {
    let first = |mode: u32, opposite: f32| {
        let mut cycle = [-0.5; 2048];
        (cycle[0], cycle[1024]) = (-0.0, opposite);
        picture(mode, 50.0, &cycle, 2)[0].to_bits()
    };
    let (zero, minus_zero) = (0, 1 << 31);
    assert_eq!(first(0, 0.5), minus_zero);
    assert_eq!(first(AM_1, 0.5), minus_zero);
    assert_eq!(first(ODD_EVEN, 0.5), zero);
    assert_eq!(first(ODD_EVEN, 0.0), zero);
    assert_eq!(first(ODD_EVEN, -0.5), minus_zero);
    assert_eq!(first(ODD_EVEN, -0.0), minus_zero);
    assert!(f32::from_bits(first(ODD_EVEN, f32::INFINITY)).is_nan());
}

/// A lane's state and the output after a list of ranges.
fn run(card: &Card<'_>, cuts: &[usize], rows: &Rows<'_>, n: usize, factor: usize) -> Vec<u32> {
    let frames = cuts[cuts.len() - 1];
    let mut output = vec![0.0; frames * n];
    let mut work = vec![0.0; frames * factor * n];
    let (mut pairs, mut fm, mut last) = (vec![0.0; 4 * n], vec![0.0; 2 * n], vec![0.0; n]);
    let mut decimator = vec![0.0; 72 * n];
    let mut state = State {
        pairs: &mut pairs,
        fm: &mut fm,
        last: &mut last,
    };
    for cut in cuts.windows(2) {
        card.run(
            cut[0]..cut[1],
            &designs(),
            rows,
            &mut output,
            &mut work,
            state.again(),
            &mut decimator,
        );
    }
    [output, pairs, fm, last, decimator]
        .concat()
        .into_iter()
        .map(f32::to_bits)
        .collect()
}

#[test]
fn a_block_and_its_cuts() {
    const FRAMES: usize = 75;
    const N: usize = 3;
    const ACTIVE: usize = 2;
    let mut s = 0x1234_5678u32;
    let mut draw = || {
        s ^= s << 13;
        s ^= s >> 17;
        s ^= s << 5;
        s
    };
    let mut floats = |count: usize, low: f32, high: f32| -> Vec<f32> {
        (0..count)
            .map(|_| low + (high - low) * ((draw() >> 8) as f32 / 16_777_216.0))
            .collect()
    };
    let cycle = floats(2048, -1.0, 1.0);
    let curve = floats(1025, 0.0, 1.0);
    let base = [floats(N, 0.0, 100.0), floats(N, 0.0, 100.0)];
    let mods = floats(FRAMES * N, -50.0, 50.0);
    let sources = [floats(FRAMES * N, -1.0, 1.0), floats(FRAMES * N, -1.0, 1.0)];
    // Both slots through every mode, each factor in turn.
    for modes in (0..70)
        .map(|m| [m, (m * 29 + 5) % 70])
        .chain([[57, 17], [21, 57]])
    {
        let factor = 1 << (modes[0] % 4);
        let settings = Settings {
            modes,
            characters: [0.3, 0.7],
            factor,
            n: N,
            active: ACTIVE,
            frames: FRAMES,
            rate: 44_100,
        };
        let lent = Lent {
            base: [&base[0], &base[1]],
            mods: [&mods, &[]],
            sources: [&sources[0], &sources[1]],
            curve: &curve,
        };
        let words: Vec<u32> = (0..FRAMES * factor * N)
            .map(|i| (i as u32 / N as u32).wrapping_mul(20_000_000 / factor as u32))
            .collect();
        let steps = vec![20_000_000 / factor as u32; words.len()];
        let card = Card::new(&settings, &lent);
        let spans = FRAMES.div_ceil(32) * N;
        let mut inner = vec![1.0; spans];
        card.prepare(&mut inner, &mut vec![1.0; spans], &mut vec![0.0; spans]);
        let rows = Rows {
            cycle: &cycle,
            words: &words,
            steps: &steps,
            inner: &inner,
        };
        let whole = run(&card, &[0, FRAMES], &rows, N, factor);
        let cut = run(&card, &[0, 1, 1, 20, 33, 70, FRAMES], &rows, N, factor);
        assert_eq!(whole, cut, "{modes:?}");
        // The crate renders at the factor if a mode asks for it.
        if modes.iter().any(|&m| api::oversampled(m)) {
            let mut output = vec![0.0; FRAMES * N];
            card.render(&cycle, &words, &steps, &mut output);
            let output: Vec<u32> = output.into_iter().map(f32::to_bits).collect();
            assert_eq!(whole[..FRAMES * N], output, "{modes:?}");
        }
    }
}
