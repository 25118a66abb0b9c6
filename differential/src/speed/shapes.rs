//! A sequence of samples through one slot of the wave stage: the sixteen filters and distortions, AM and Ring.

use super::clock::{INPUTS, Times, best};
use super::markdown;
use crate::probe::{self, WaveSlot};
use programs::Generator;
use ruled::api;
use ruled::api::wave::{self, Pair};
use std::hint::black_box;

const LOW_PASS: u32 = 17;
const HIGH_PASS: u32 = 18;
const SOFT_SATURATE: u32 = 32;
const AM1: u32 = 58;
const RM1: u32 = 64;

/// The oracle's loop over the samples: what its run does to each in a slot of the wave side. The mode is
/// read anew for each, as the library does, so that nothing is taken out of the loop.
#[inline(never)]
fn oracle_shape(slot: &WaveSlot, xs: &[f32], out: &mut [f32], state: &mut [f32]) {
    let mut pair = Pair { ic1: state[0], ic2: state[1] };
    let (a, s) = (slot.amount, slot.source.unwrap_or(f32::NAN));
    for (to, &x) in out.iter_mut().zip(xs) {
        let mode = black_box(slot.mode);
        (*to, pair) = match mode {
            LOW_PASS | HIGH_PASS => {
                let harmonic = wave::cutoff_harmonic(mode, a);
                wave::filter(mode, harmonic, slot.increment, wave::damping(slot.character), x, pair)
            }
            AM1 => (x * (1.0 - a * 0.5 * (1.0 - s)), pair),
            RM1 => (x * (1.0 - a + a * s), pair),
            _ => wave::distort_smooth(mode, a, x, pair),
        };
    }
    state.copy_from_slice(&[pair.ic1, pair.ic2]);
}

fn measured(mode: u32) -> (String, Times) {
    let mut g = Generator(0x5eed);
    let xs: Vec<f32> = (0..INPUTS).map(|_| (g.draw() >> 8) as f32 / 8_388_608.0 - 1.0).collect();
    let (mut out, mut other) = (vec![0.0; INPUTS], vec![0.0; INPUTS]);
    let slot = WaveSlot {
        mode,
        amount: 0.37,
        character: 0.25,
        source: Some(0.61),
        increment: 0.004,
    };
    let times = best(
        || {
            black_box(probe::shape_run(&black_box(slot), black_box(&xs), &mut out, &mut [0.0; 2]));
        },
        || {
            oracle_shape(&black_box(slot), black_box(&xs), &mut other, &mut [0.0; 2]);
            black_box(&other);
        },
    );
    (format!("{:?}", api::mode(mode)), times)
}

pub fn print() {
    let title = "A slot of the wave stage over a sequence, the setting made anew for each sample, a sample; the\n\
        Rust's side of AM and Ring is the bare formula, without the run around it:";
    markdown::times(title, "mode", (LOW_PASS..=SOFT_SATURATE).chain([AM1, RM1]).map(measured));
}
