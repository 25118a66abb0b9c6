//! Decimations with the card's designs.

use super::clock::{INPUTS, Times, best};
use super::markdown;
use crate::card;
use programs::Generator;
use programs::decimations::{Shape, cells, numbers};
use ruled::api::halfband::{self, Kept};
use std::hint::black_box;

/// Each call's host frames.
const FRAMES: u32 = 256;

/// As many calls as make `INPUTS` frames, each on a copy of the same samples.
fn measured([factor, lanes]: [u32; 2]) -> (String, Times) {
    let designs = halfband::designs();
    let (counts, coefs) = numbers(&designs);
    let shape = Shape { factor, lanes, active: lanes, frames: FRAMES };
    let [by, n, rows] = [factor, lanes, FRAMES].map(|x| x as usize);
    let samples = cells(&mut Generator(0x5eed), rows * by * n, false);
    let (mut buffer, mut other) = (samples.clone(), samples.clone());
    let mut state = vec![0.0; 72 * n];
    let mut kept = Kept::new(&designs, n, &state);
    let times = best(
        || {
            for _ in 0..INPUTS / rows {
                buffer.copy_from_slice(&samples);
                black_box(card::decimate(black_box(shape), counts, &coefs, black_box(&mut buffer), &mut state));
            }
        },
        || {
            for _ in 0..INPUTS / rows {
                other.copy_from_slice(&samples);
                black_box(&mut kept).process(by, n, rows, black_box(&mut other));
            }
        },
    );
    (format!("by {factor}, lanes {lanes}"), times)
}

pub fn print() {
    let all = [2, 4, 8].into_iter().flat_map(|factor| [1, 16, 64].map(|lanes| [factor, lanes]));
    let title = "Decimation with the card's designs, all lanes active, 256 host frames a call, an output frame:";
    markdown::times(title, "factor, lanes", all.map(measured));
}
