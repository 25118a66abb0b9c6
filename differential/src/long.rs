//! All comparisons in rounds, each on a fresh seed, for some minutes.

use crate::tally::Tally;
use crate::{COMPARISONS, Comparison};
use std::time::{Duration, Instant, SystemTime, UNIX_EPOCH};

/// A seed by the clock.
pub fn seed() -> u32 {
    SystemTime::now().duration_since(UNIX_EPOCH).map_or(1, |since| since.as_nanos() as u32)
}

/// A comparison, and what its parts have passed so far.
struct Sums {
    comparison: Comparison,
    parts: Vec<Tally>,
}

impl Sums {
    fn new(comparison: Comparison) -> Self {
        let parts = comparison.parts.iter().map(|_| Tally::default()).collect();
        Self { comparison, parts }
    }

    fn all(&self) -> Tally {
        let mut all = Tally::default();
        for tally in &self.parts {
            all.add(tally);
        }
        all
    }

    /// Runs a round; says how to run it again if something differs.
    fn round(&mut self, seed: u32) {
        let Comparison { name, round, .. } = self.comparison;
        let mut is_right = true;
        for (sum, (_, tally)) in self.parts.iter_mut().zip(self.comparison.run(round, seed)) {
            is_right &= tally.is_right();
            sum.add(&tally);
        }
        if !is_right {
            eprintln!("again: differential {name} {round} {seed}");
        }
    }

    fn table(&self) {
        println!("{}: {}", self.comparison.name, self.all());
        for ((name, _), tally) in self.comparison.parts.iter().zip(&self.parts) {
            println!("    {name}: {tally}");
        }
    }
}

/// Rounds on `seed`, `seed` + 1 and so on; the last is the one in which the minutes are over.
pub fn run(minutes: u64, seed: u32) -> Tally {
    let start = Instant::now();
    let mut sums = COMPARISONS.map(Sums::new);
    println!("seed {seed}");
    for round in 0.. {
        for sums in &mut sums {
            sums.round(seed.wrapping_add(round));
        }
        let so_far: Vec<String> = sums.iter().map(|sums| format!("{} {}", sums.comparison.name, sums.all())).collect();
        let seconds = start.elapsed().as_secs();
        println!("{}:{:02}, round {}: {}", seconds / 60, seconds % 60, round + 1, so_far.join(", "));
        if start.elapsed() >= Duration::from_secs(60 * minutes) {
            break;
        }
    }
    let mut all = Tally::default();
    for sums in &sums {
        sums.table();
        all.add(&sums.all());
    }
    all
}
