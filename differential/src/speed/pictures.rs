//! Pictures of 256 points, by the Rust over the curve and the table that its shapers hold.

use super::blocks::mode;
use super::clock::{INPUTS, Times, best};
use super::markdown;
use crate::card;
use crate::guards::differs;
use programs::blocks::angles;
use programs::pictures::Picture;
use programs::singles::Buffer;
use programs::{Generator, lookup_table};
use ruled::api::{self, Panel};
use std::hint::black_box;

/// The points of a picture.
const POINTS: usize = 256;

/// Slot 0's mode and slot 1's: beside the distortions alone, which are 19 to 32.
const PAIRS: [[&str; 2]; 12] = [
    ["Off", "Off"],
    ["LowPass", "Off"],
    ["HighPass", "Off"],
    ["LowPass", "HighPass"],
    ["OddEven", "OddEven"],
    ["LeanRight", "RemapDrawn"],
    ["Sync", "Mirror"],
    ["Quantise", "RemapDrawn"],
    ["PulseWidth", "Flip"],
    ["PinchIn", "Lean"],
    ["RemapDrawn", "LowPass"],
    ["Am1", "Off"],
];

#[inline(never)]
fn oracle_preview(panel: &Panel, picture: &mut [f32]) {
    panel.preview(picture);
}

/// As many pictures as make `INPUTS` points.
fn measured(modes: [u32; 2]) -> (String, Times) {
    let picture = Picture { modes, characters: [0.25, 0.125], amounts: [37.0, 61.0] };
    let (numbers, curve) = (angles(), lookup_table());
    let mut g = Generator(0x5eed);
    let cycle: Vec<f32> = (0..2048).map(|_| Buffer::Cycle.cell(g.draw(), false)).collect();
    let panel = Panel::new(modes, picture.characters, picture.amounts, &curve, &cycle);
    let [mut ours, mut theirs] = [0, 1].map(|_| vec![0.0; POINTS]);
    let times = best(
        || {
            for _ in 0..INPUTS / POINTS {
                black_box(card::preview(&black_box(picture), &numbers, &curve, &cycle, black_box(&mut ours)));
            }
        },
        || {
            for _ in 0..INPUTS / POINTS {
                oracle_preview(black_box(&panel), black_box(&mut theirs));
            }
        },
    );
    assert_eq!(differs(&ours, &theirs), None, "{picture:?}");
    (modes.map(|mode| format!("{:?}", api::mode(mode))).join(", "), times)
}

pub fn print() {
    let modes = PAIRS.map(|names| names.map(mode)).into_iter().chain((19..=32).map(|mode| [mode, 0]));
    markdown::times_and_mean("Pictures of 256 points, a point:", "modes (slot 0, slot 1)", modes.map(measured));
}
