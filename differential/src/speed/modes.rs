//! Block runs of each mode alone: in slot 0, with slot 1 off.

use super::blocks::{Run, Way};
use super::summary::{self, Row, measured};

const FACTORS: [u32; 2] = [1, 8];

fn runs(mode: u32) -> impl Iterator<Item = Run> {
    Run::all([mode, 0], &FACTORS, Way::WHOLE)
}

pub fn print(is_full: bool) {
    let all = measured((0..70).flat_map(runs));
    let groups = runs(0).map(|kind| {
        let of_kind = |run: &Run| (run.factor, run.is_modulated) == (kind.factor, kind.is_modulated);
        let rows: Vec<Row> = all.iter().filter(|(run, _)| of_kind(run)).copied().collect();
        (vec![kind.kind()], rows)
    });
    summary::groups(
        "Block runs of each of the 70 modes alone in slot 0, slot 1 Off, 8 lanes, 128 host frames in one call:",
        &["factor"],
        groups.chain([(vec!["all".to_string()], all.clone())]),
    );
    summary::worst("The worst of them, a rendered sample:", &all);
    if is_full {
        summary::each("All of them, a rendered sample:", &all);
    }
}
