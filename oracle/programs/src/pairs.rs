//! Lines of the vectors for runs of calls with two modes.

/// The modes of each run, slot 0's first: all 70 in each slot, twice, and
/// then `more`.
fn modes(more: &[[u32; 2]]) -> impl Iterator<Item = [u32; 2]> {
    let every = |step: u32, from: u32| (0..70).map(move |mode| [mode, (step * mode + from) % 70]);
    every(29, 5)
        .chain(every(13, 44))
        .chain(more.iter().copied())
}

/// Prints a line for each run of `count` calls, which is made of its modes,
/// its seed and the count. Seeds are made of numbers from `first` on.
pub fn print(
    code: usize,
    first: u32,
    count: u32,
    more: &[[u32; 2]],
    run: fn([u32; 2], u32, u32) -> u64,
) {
    for (place, [mode0, mode1]) in modes(more).enumerate() {
        let line = first + place as u32;
        // Odd in turn, a mode's second run unlike its first.
        let odd = (mode0 + place as u32 / 70) & 1;
        let seed = line.wrapping_mul(0x9e37_79b1) & !1 | odd;
        let hash = run([mode0, mode1], seed, count);
        println!(
            "{code:02x} {seed:08x} {:08x} {:08x} {:08x}",
            mode1 << 24 | mode0 << 16 | count,
            (hash >> 32) as u32,
            hash as u32
        );
    }
}
