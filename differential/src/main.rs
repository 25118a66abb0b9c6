//! Compares the proved library with the oracle, bit for bit, NaN as one value, and prints "P of T";
//! or measures its speed as a ratio to the oracle's.

mod blocks;
mod card;
mod cycle;
mod decimate;
mod files;
mod guards;
mod leaves;
mod lending;
mod levels;
mod long;
mod phases;
mod pictures;
mod plans;
mod probe;
mod refusals;
mod singles;
mod speed;
mod tally;
mod waves;

use tally::{Part, Tally};

const USAGE: &str = "usage: differential quick
       differential long MINUTES [SEED]
       differential COMPARISON COUNT [SEED]
         leaves, cycle, phases, waves, decimate, singles, blocks, plans, pictures, files, levels or largest
       differential speed [leaves | lists | shapes | decimations | pictures | files | levels | pairs | modes | ranges |
                           lanes] [rows]
         all of it, or one table: leaves of lanes.rs, sums of read lists, slots of the wave stage, decimations,
         pictures, patch files, searches for an amount; block runs of pairs of modes, of each mode alone, and of the
         pairs by lanes and by the frames of a call, of which `rows` prints every row; ranges by their lanes one by
         one";

struct Comparison {
    name: &'static str,
    parts: &'static [Part],
    /// The count that `quick` runs it at; 0 for not at all.
    quick: u64,
    /// The count of a round of `long`: all pairs of modes, in some ten seconds for all comparisons.
    round: u64,
}

/// Spans are in singles, blocks and largest; read lists in phases and singles; samples in waves and singles;
/// state in waves, decimate, singles, blocks and largest; decimated buffers in decimate; whole blocks in
/// blocks and largest, by one call and lane by lane; refusals in decimate, singles, blocks, plans, pictures, files
/// and levels; cuts, demand 3 by brute force, in blocks; what a block needs in plans; drawn cycles in pictures;
/// patches in files; amounts that give a level in levels. The reading of the cycle has words of its own in cycle.
const COMPARISONS: [Comparison; 12] = [
    Comparison { name: "leaves", parts: leaves::PARTS, quick: 200_000, round: 1_000_000 },
    Comparison { name: "cycle", parts: cycle::PARTS, quick: 1_000, round: 2_000 },
    Comparison { name: "phases", parts: phases::PARTS, quick: 400_000, round: 1_600_000 },
    Comparison { name: "waves", parts: waves::PARTS, quick: 150_000, round: 300_000 },
    Comparison { name: "decimate", parts: decimate::PARTS, quick: 2_000, round: 16_000 },
    Comparison { name: "singles", parts: singles::PARTS, quick: 4_900, round: 9_800 },
    Comparison { name: "blocks", parts: blocks::PARTS, quick: 490, round: 4_900 },
    Comparison { name: "plans", parts: plans::PARTS, quick: 4_900, round: 4_900 },
    Comparison { name: "pictures", parts: pictures::PARTS, quick: 4_900, round: 9_800 },
    Comparison { name: "files", parts: files::PARTS, quick: 100_000, round: 100_000 },
    Comparison { name: "levels", parts: levels::PARTS, quick: 4_000, round: 4_000 },
    Comparison { name: "largest", parts: blocks::LARGEST, quick: 0, round: 4 },
];

impl Comparison {
    /// Runs its parts, one at each step.
    fn run(&self, count: u64, seed: u32) -> impl Iterator<Item = (&'static str, Tally)> {
        self.parts.iter().map(move |(name, part)| {
            let mut tally = Tally::new(seed);
            part(count, &mut tally);
            (*name, tally)
        })
    }

    /// Runs it and prints each part's line.
    fn print(&self, count: u64, seed: u32) -> Tally {
        let mut all = Tally::default();
        for (name, tally) in self.run(count, seed) {
            println!("{name}: {tally}");
            all.add(&tally);
        }
        all
    }
}

fn finish(tally: &Tally) {
    println!("{tally}");
    if !tally.is_right() || tally.total == 0 {
        std::process::exit(1);
    }
}

fn quick() -> Tally {
    let mut all = Tally::default();
    for comparison in COMPARISONS.into_iter().filter(|comparison| comparison.quick > 0) {
        all.add(&comparison.print(comparison.quick, 0));
    }
    all
}

/// The comparison of this name at this count, or all of them for as many minutes.
fn one(name: &str, count: &str, seed: Option<u32>) -> Option<Tally> {
    let count = count.parse().ok()?;
    if name == "long" {
        return Some(long::run(count, seed.unwrap_or_else(long::seed)));
    }
    let comparison = COMPARISONS.into_iter().find(|comparison| comparison.name == name)?;
    Some(comparison.print(count, seed.unwrap_or(0)))
}

fn main() {
    let args: Vec<String> = std::env::args().skip(1).collect();
    let words: Vec<&str> = args.iter().map(String::as_str).collect();
    let compared = match words[..] {
        ["quick"] => Some(quick()),
        ["speed", ref parts @ ..] if speed::run(parts) => return,
        [name, count] => one(name, count, None),
        [name, count, seed] => seed.parse().ok().and_then(|seed| one(name, count, Some(seed))),
        _ => None,
    };
    match compared {
        Some(tally) => finish(&tally),
        None => {
            eprintln!("{USAGE}");
            std::process::exit(2);
        }
    }
}
