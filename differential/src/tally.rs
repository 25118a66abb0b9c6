//! What passed, and the first case that did not.

use programs::Generator;
use std::fmt::{Debug, Display, Formatter};

#[derive(Default)]
pub struct Tally {
    pub passed: u64,
    pub total: u64,
    shown: u32,
    seed: u32,
}

impl Tally {
    /// None yet, of cases that are drawn from this seed. Seed 0 draws those whose results are recorded.
    pub fn new(seed: u32) -> Self {
        Self { seed, ..Self::default() }
    }

    /// A part's own seed: the part's number where the tally's seed is 0. Neighbouring seeds are mixed apart.
    pub fn seed(&self, part: u32) -> u32 {
        let mut mixed = self.seed;
        for by in [0x85eb_ca6b, 0xc2b2_ae35] {
            mixed = (mixed ^ mixed >> 16).wrapping_mul(by);
        }
        mixed ^ mixed >> 16 ^ part
    }

    pub fn generator(&self, part: u32) -> Generator {
        Generator(self.seed(part).max(1))
    }

    pub fn is_right(&self) -> bool {
        self.passed == self.total
    }

    /// Counts a case; prints the first few that fail.
    pub fn case(&mut self, right: bool, what: impl FnOnce() -> String) {
        self.total += 1;
        if right {
            self.passed += 1;
        } else if self.shown < 5 {
            self.shown += 1;
            eprintln!("differs: {}", what());
        }
    }

    /// The same answers, all NaNs being one value.
    pub fn same<I: Debug>(&mut self, name: &str, input: I, got: f32, want: f32) {
        self.same_as("the oracle", name, input, got, want);
    }

    /// The same answers as those of `whose`.
    pub fn same_as<I: Debug>(&mut self, whose: &str, name: &str, input: I, got: f32, want: f32) {
        let right = got.to_bits() == want.to_bits() || got.is_nan() && want.is_nan();
        self.case(right, || {
            format!(
                "{name} of {input:x?}: {:08x}, {whose} {:08x}",
                got.to_bits(),
                want.to_bits()
            )
        });
    }

    pub fn word<I: Debug>(&mut self, name: &str, input: I, got: u64, want: u64) {
        self.case(got == want, || {
            format!("{name} of {input:x?}: {got:08x}, the oracle {want:08x}")
        });
    }

    pub fn add(&mut self, other: &Self) {
        self.passed += other.passed;
        self.total += other.total;
    }
}

impl Display for Tally {
    fn fmt(&self, out: &mut Formatter<'_>) -> std::fmt::Result {
        write!(out, "{} of {}", self.passed, self.total)
    }
}

/// A part of a comparison: its name and what it runs.
pub type Part = (&'static str, fn(u64, &mut Tally));
