//! Sums of read lists of two slots.

use super::blocks::mode;
use super::clock::{INPUTS, Times, best};
use super::markdown;
use crate::probe::{self, Slots};
use programs::{Generator, lookup_table};
use ruled::api::phase::{self, Slot};
use ruled::osc::{self, LaneReads, Wave};
use std::hint::black_box;

/// Modes of slot 1 and slot 0: alone, and two that map.
const PAIRS: [[&str; 2]; 13] = [
    ["Off", "Off"],
    ["Off", "Sync"],
    ["Off", "PinchIn"],
    ["Off", "Lean"],
    ["Off", "PulseWidth"],
    ["Off", "Flip"],
    ["Off", "Mirror"],
    ["Off", "RemapDrawn"],
    ["Off", "Quantise"],
    ["Off", "OddEven"],
    ["Sync", "Mirror"],
    ["PinchIn", "Lean"],
    ["Quantise", "RemapDrawn"],
];

/// The oracle's loop over the words: two slots, the list as it goes out, the sum of its reads.
#[inline(never)]
fn oracle_run(curve: &[f32], cycle: &[f32], slots: Slots, half: f32, inner: f32, words: &[u32], out: &mut [f32]) {
    let slot1 = Slot { mode: slots.mode1, character: slots.character1, curve };
    let slot0 = Slot { mode: slots.mode0, character: slots.character0, curve };
    for (to, &word) in out.iter_mut().zip(words) {
        let list = phase::apply(&slot1, slots.amount1, half, &phase::start(word));
        let list = phase::apply(&slot0, slots.amount0, half * inner, &list);
        let reads = LaneReads {
            phase: list.word,
            gain: list.gain,
            count: if list.weighted { list.count } else { 0 },
        };
        *to = osc::read(Wave(cycle), &reads);
    }
}

/// The words go on by a step.
fn measured(names: [&str; 2]) -> (String, Times) {
    let [mode1, mode0] = names.map(mode);
    let curve = lookup_table();
    let mut g = Generator(0x5eed);
    let cycle: Vec<f32> = (0..2048).map(|_| (g.draw() >> 8) as f32 / 8_388_608.0 - 1.0).collect();
    let step = 0x0123_4567u32;
    let words: Vec<u32> = (0..INPUTS as u32).map(|i| i.wrapping_mul(step)).collect();
    let half = step as f32 / 4_294_967_296.0;
    let (mut out, mut other) = (vec![0.0; INPUTS], vec![0.0; INPUTS]);
    let slots = Slots {
        mode0,
        mode1,
        character0: 0.25,
        character1: 0.125,
        amount0: 0.37,
        amount1: 0.61,
    };
    let times = best(
        || {
            black_box(probe::reads_run(&curve, &cycle, black_box(slots), half, 1.5, black_box(&words), &mut out));
        },
        || {
            oracle_run(&curve, &cycle, black_box(slots), half, 1.5, black_box(&words), &mut other);
            black_box(&other);
        },
    );
    (names.join(", "), times)
}

pub fn print() {
    let title = "Sums of read lists of two slots (mode 1, mode 0), a word; the oracle's opened `apply` copies its\n\
        lists, which flatters the library here, but not in the block runs:";
    markdown::times(title, "modes", PAIRS.into_iter().map(measured));
}
