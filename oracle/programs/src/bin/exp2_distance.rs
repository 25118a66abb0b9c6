//! Measures, over every f32 from -126 to 128, how far the added exp2 lies
//! from the crate's, and each of them from 2^x.

use std::thread;

use published::api::lanes::exp2 as published_exp2;
use ruled::api::lanes::exp2 as added_exp2;

/// A largest relative distance, and where it was met first.
#[derive(Clone, Copy, Default)]
struct Largest {
    distance: f64,
    at: f32,
}

impl Largest {
    fn take(&mut self, distance: f64, at: f32) {
        if distance > self.distance {
            *self = Self { distance, at };
        }
    }

    fn merge(self, other: Self) -> Self {
        if other.distance > self.distance {
            other
        } else {
            self
        }
    }
}

/// The added from the published, the added from 2^x, the published from 2^x.
type Largests = [Largest; 3];

/// Over the floats of a run of bit patterns.
fn measure(bits: std::ops::Range<u32>) -> Largests {
    let mut largest = Largests::default();
    for bits in bits {
        let x = f32::from_bits(bits);
        let added = f64::from(added_exp2(x));
        let published = f64::from(published_exp2(x));
        let exact = f64::from(x).exp2();
        largest[0].take((added - published).abs() / published, x);
        largest[1].take((added - exact).abs() / exact, x);
        largest[2].take((published - exact).abs() / exact, x);
    }
    largest
}

fn merge(a: Largests, b: Largests) -> Largests {
    [0, 1, 2].map(|i| a[i].merge(b[i]))
}

fn main() {
    let zero = 0.0f32.to_bits();
    let minus_zero = (-0.0f32).to_bits();
    let up_to = |x: f32| x.to_bits() + 1;
    // A thread for each sign; -126 and 126 included, 128 not.
    let (inner, outer) = thread::scope(|scope| {
        let negative = scope.spawn(|| measure(minus_zero..up_to(-126.0)));
        let positive = measure(zero..up_to(126.0));
        let outer = measure(up_to(126.0)..128.0f32.to_bits());
        let negative = negative.join().expect("the measuring thread");
        (merge(negative, positive), outer)
    });
    for (range, largest) in [
        ("-126 to 126", inner),
        (
            "-126 to 128, where the published one stays at 2^126",
            merge(inner, outer),
        ),
    ] {
        println!("{range}:");
        for (what, Largest { distance, at }) in [
            "added from published",
            "added from 2^x",
            "published from 2^x",
        ]
        .into_iter()
        .zip(largest)
        {
            println!(
                "  {what}: {distance:.4e} relative, at {at:e} ({:#010x})",
                at.to_bits()
            );
        }
    }
}
