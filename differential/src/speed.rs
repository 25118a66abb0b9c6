//! The library's times and those of the oracle with the added rules, in one run: release builds, the same
//! inputs, both behind a call that is not inlined. It prints the tables of docs/DIFFERENCES.md as they stand there.

mod blocks;
mod clock;
mod decimations;
mod files;
mod lanes;
mod leaves;
mod levels;
mod lists;
mod markdown;
mod modes;
mod pairs;
mod pictures;
mod ranges;
mod shapes;
mod summary;

/// The parts by their names; those that sum rows up print every one of them on demand.
const PARTS: [(&str, fn(bool)); 11] = [
    ("leaves", |_| leaves::print()),
    ("lists", |_| lists::print()),
    ("shapes", |_| shapes::print()),
    ("decimations", |_| decimations::print()),
    ("pictures", |_| pictures::print()),
    ("files", |_| files::print()),
    ("levels", |_| levels::print()),
    ("pairs", pairs::print),
    ("modes", modes::print),
    ("ranges", ranges::print),
    ("lanes", |_| lanes::print()),
];

/// Prints the named part, or all if none is named; after it the word `rows` asks for every row. Whether the
/// words are understood.
pub fn run(words: &[&str]) -> bool {
    let (names, is_full) = match words {
        [names @ .., "rows"] => (names, true),
        names => (names, false),
    };
    let is_asked = |name: &str| names.is_empty() || names == [name];
    let asked: Vec<_> = PARTS.into_iter().filter(|(name, _)| is_asked(name)).collect();
    for (_, print) in &asked {
        print(is_full);
    }
    !asked.is_empty()
}
