//! Searches for an amount that find none, against the same search over the Rust's `distort`, since the crate has none.

use super::clock::{Times, medians};
use super::markdown;
use crate::card;
use programs::blocks::angles;
use programs::files::MOST;
use programs::levels::Search;
use ruled::api::{self, lanes, wave};
use std::hint::black_box;

/// Samples on either side of 0 and past the knees; a round looks for a level of each.
const SAMPLES: [f32; 3] = [0.3, -0.7, 1.5];
const ROUNDS: usize = 101;

/// One amount after another, as the library tries them; one more than the most if none serves.
#[inline(never)]
fn oracle_search(search: &Search) -> u32 {
    let mut hundredths = 0;
    while hundredths <= MOST {
        let a = lanes::clamp(hundredths as f32 / 100.0, 0.0, 100.0) * 0.01;
        let output = wave::distort(search.mode, a, search.sample);
        if (output - search.wanted).abs() <= search.tolerance {
            break;
        }
        hundredths += 1;
    }
    hundredths
}

fn measured(mode: u32) -> (String, Times) {
    let numbers = angles();
    let searches = SAMPLES.map(|sample| Search { mode, sample, wanted: 1e9, tolerance: 0.0 });
    let times = medians(
        ROUNDS,
        searches.len() as f64 * f64::from(MOST + 1),
        || {
            for search in &searches {
                black_box(card::amount_for(black_box(search), &numbers));
            }
        },
        || {
            for search in &searches {
                black_box(oracle_search(black_box(search)));
            }
        },
    );
    let is_none = |search: &Search| card::amount_for(search, &numbers).number == 12 && oracle_search(search) > MOST;
    assert!(searches.iter().all(is_none), "mode {mode}");
    (format!("{:?}", api::mode(mode)), times)
}

pub fn print() {
    let title = "Searches for an amount that try all 10,001 and find none, an amount; the crate has no search, the\n\
        Rust's side is a plain one over its `distort`:";
    markdown::times_and_mean(title, "mode", (19..=32).map(measured));
}
