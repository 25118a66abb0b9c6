//! Pairs of files: whether they hold the same patch.

use super::damages::{DAMAGES, place};
use super::reads::file;
use super::{AROUND, card, files};
use super::{guarded, shown};
use crate::tally::Tally;
use programs::Generator;
use programs::files::{LIMIT, MODE, MOST, Patch, RECORD, Record, Slot, WRITTEN, bytes};

/// Two files compared by both. What they are lent of stays.
fn same(a: &[u8], b: &[u8], tally: &mut Tally) -> [u32; 2] {
    let before = [a, b].map(guarded);
    let cells = before.clone();
    let [a, b] = [0, 1].map(|at: usize| &cells[at][AROUND..cells[at].len() - AROUND]);
    let got = answer(a, b);
    let want = files::same(a, b);
    let shown = || format!("{} and {}", shown(a, 0), shown(b, 0));
    tally.case(got == want, || format!("whether the same, {}: {got:?}, the model {want:?}", shown()));
    tally.case(cells == before, || format!("what the comparison leaves of {}", shown()));
    got
}

fn answer(a: &[u8], b: &[u8]) -> [u32; 2] {
    let card::Same { number, same } = card::patch_same(a, b);
    [number, same]
}

/// The file that a writer emits.
fn written(patch: &Patch) -> Vec<u8> {
    let mut file = vec![0; WRITTEN];
    files::write(patch, &mut file);
    file
}

/// Another number up to the highest.
fn other(number: u32, most: u32, g: &mut Generator) -> u32 {
    (number + 1 + (g.draw() >> 8) % most) % (most + 1)
}

/// The patch with one thing changed, and whether that makes it another.
fn changed(mut patch: Patch, how: u64, g: &mut Generator) -> (Patch, u32) {
    let slot: &mut Slot = &mut patch[how as usize % 2];
    let same = match how / 2 {
        0 => {
            slot.ten_thousandths = other(slot.ten_thousandths, MOST, g);
            1
        }
        1 => {
            slot.mode = other(slot.mode, MODE, g);
            0
        }
        _ => {
            slot.hundredths = other(slot.hundredths, MOST, g);
            0
        }
    };
    (patch, same)
}

/// A right file and one that holds its patch, or that with one thing changed, known without the model; with a
/// damaged one, and with another.
pub fn drawn(count: u64, tally: &mut Tally) {
    let mut g = tally.generator(0xab1c_5ed5);
    for i in 0..count {
        let records = (g.draw() >> 8) as usize % 13;
        let first = file(&mut g, records);
        let patch = files::read(&first).patch;
        let (second, known) = match i % 9 {
            how @ 0..=5 => {
                let (patch, same) = changed(patch, how, &mut g);
                (written(&patch), Some([0, same]))
            }
            6 => (written(&patch), Some([0, 1])),
            7 => {
                let mut file = first.clone();
                let at = place(&file, &mut g);
                DAMAGES[(g.draw() >> 8) as usize % DAMAGES.len()](&mut file, at, &mut g);
                (file, None)
            }
            _ => (file(&mut g, records), None),
        };
        let got = [same(&first, &second, tally), same(&second, &first, tally)];
        let is_known = known.is_none_or(|known| got == [known; 2]);
        tally.case(is_known, || format!("{} and {}: {got:?}, known {known:?}", shown(&first, 0), shown(&second, 0)));
    }
}

/// A file, the number that it is turned away with, and which patch it holds.
type Known = (Vec<u8>, u32, u32);

/// Files of a patch and of those next to it, with superseded records and without; those of no patch.
fn known() -> Vec<Known> {
    let record = |slot, mode, hundredths, ten_thousandths, serial| Record {
        slot,
        mode,
        hundredths,
        ten_thousandths,
        serial,
        ..Record::of(0, 0, 0)
    };
    let [first, second] = [record(0, 21, 5_000, 2_500, 5), record(1, 5, 10_000, 0, 0)];
    let older = record(0, 7, 1, 1, 3);
    let right = [
        (vec![], 1),
        (vec![record(0, 0, 0, 10_000, 9)], 1),
        (vec![record(1, 0, 0, 0, 9), record(0, 0, 0, 1, 1)], 1),
        (vec![record(0, 0, 1, 0, 9)], 2),
        (vec![first, second], 3),
        (vec![second, record(0, 21, 5_000, 2_501, 1)], 3),
        (vec![record(0, 7, 1, 1, 5), older, first, older, second], 3),
        (vec![first, record(1, 5, 10_000, 10_000, u32::MAX), second], 3),
        (vec![first, older, record(0, 7, 1, 1, 5), second], 4),
        (vec![record(0, 22, 5_000, 2_500, 5), second], 5),
        (vec![record(0, 21, 5_001, 2_500, 5), second], 6),
        (vec![first, record(1, 6, 10_000, 0, 0)], 7),
        (vec![first, record(1, 5, 9_999, 0, 0)], 8),
        (vec![Record { slot: 1, ..first }, Record { slot: 0, ..second }], 9),
        (vec![first], 10),
    ];
    let none = [
        (vec![Record { length: 13, ..first }], 9),
        (vec![Record { kind: 2, ..first }], 10),
        (vec![Record { mode: 70, ..first }, Record { kind: 2, ..first }], 11),
        (vec![first; LIMIT / RECORD + 1], 9),
    ];
    let right = right.into_iter().map(|(records, patch)| (bytes(&records), 0, patch));
    right.chain(none.into_iter().map(|(records, number)| (bytes(&records), number, 0))).collect()
}

/// What two of them answer.
fn expected(a: &Known, b: &Known) -> [u32; 2] {
    match (a.1, b.1) {
        (0, 0) => [0, u32::from(a.2 == b.2)],
        (0, number) | (number, _) => [number, 0],
    }
}

/// All pairs of these, each with itself too: apart, and where they lie.
pub fn all(_: u64, tally: &mut Tally) {
    let known = known();
    for (a, b) in known.iter().flat_map(|a| known.iter().map(move |b| (a, b))) {
        let [apart, shared, want] = [same(&a.0, &b.0, tally), answer(&a.0, &b.0), expected(a, b)];
        let is_right = apart == want && shared == want;
        tally.case(is_right, || format!("{} and {}: {apart:?}, known {want:?}", shown(&a.0, 0), shown(&b.0, 0)));
    }
    starts(tally);
}

/// All pairs of a file's starts, which lie in the same bytes.
fn starts(tally: &mut Tally) {
    let file = bytes(&[Record::of(1, 1, 1), Record::of(0, 2, 1), Record::of(256, 3, 1)]);
    for (a, b) in (0..=file.len()).flat_map(|a| (0..=file.len()).map(move |b| (a, b))) {
        let [got, want] = [answer, files::same].map(|same| same(&file[..a], &file[..b]));
        tally.case(got == want, || format!("starts of {a} and {b} bytes of {}: {got:?}", shown(&file, 0)));
    }
}
