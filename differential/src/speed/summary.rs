//! Many block runs: how they stand to the goal, and the worst of them.

use super::blocks::Run;
use super::clock::Times;
use super::markdown::{self, hundredths, table};

/// The goal: a geometric mean of `MEAN` or less, no row above `WORST`.
const MEAN: f64 = 1.0;
const WORST: f64 = 1.5;

/// How many of the worst rows are printed; more where more miss the goal.
const SHOWN: usize = 10;

pub type Row = (Run, Times);

pub fn measured(runs: impl IntoIterator<Item = Run>) -> Vec<Row> {
    runs.into_iter().map(|run| (run, run.measured())).collect()
}

/// Falling by the ratio.
fn sorted(rows: &[Row]) -> Vec<Row> {
    let mut rows = rows.to_vec();
    rows.sort_by(|a, b| b.1.ratio().total_cmp(&a.1.ratio()));
    rows
}

fn cells(rows: &[Row]) -> Vec<String> {
    let ratios = || rows.iter().map(|(_, times)| times.ratio());
    let mean = (ratios().map(f64::ln).sum::<f64>() / rows.len() as f64).exp();
    let above = |limit: f64| ratios().filter(|&ratio| ratio > limit).count().to_string();
    let (run, times) = sorted(rows)[0];
    let worst = format!("{:.2}, {}", times.ratio(), run.name());
    vec![rows.len().to_string(), hundredths(mean), above(MEAN), above(WORST), worst]
}

/// A line for each group of rows, which is headed by what it has in common.
pub fn groups(title: &str, what: &[&str], groups: impl IntoIterator<Item = (Vec<String>, Vec<Row>)>) {
    let heads = [what, &["rows", "geometric mean", "above 1.0", "above 1.5", "worst"]].concat();
    table(title, &heads, groups.into_iter().map(|(names, rows)| [names, cells(&rows)].concat()));
}

/// Every row's times.
pub fn each(title: &str, rows: &[Row]) {
    markdown::times(title, "row", rows.iter().map(|(run, times)| (run.name(), *times)));
}

/// The worst rows' times, with them all that miss the goal.
pub fn worst(title: &str, rows: &[Row]) {
    let missing = rows.iter().filter(|(_, times)| times.ratio() > WORST).count();
    each(title, &sorted(rows)[..missing.max(SHOWN)]);
}
