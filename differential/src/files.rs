//! Patch files: reading, writing and comparing them, against the model of `programs::files`, since the Rust has
//! none; and the bytes that a call leaves alone.

mod damages;
mod pairs;
mod reads;
mod writes;

use crate::card;
use crate::tally::{Part, Tally};
use programs::files::{self, Patch, RECORD, Reading, Record, Slot};
use std::ops::Range;

/// On either side of a lent file: a record, and a byte so that the file starts at an odd address.
const AROUND: usize = 1 + RECORD;

/// The file with right records around it that would count: so that a byte outside of it is seen.
fn guarded(file: &[u8]) -> Vec<u8> {
    let record = Record::of(1 << 8, 0x4321_8765, u32::MAX).bytes();
    [&[0], &record[..], file, &record[..], &[0]].concat()
}

/// A file as a message names it: its length, and some records from where it is turned away.
fn shown(file: &[u8], at: u32) -> String {
    let from = file.iter().skip(at as usize).take(4 * RECORD);
    format!("{} bytes, from {at} on {:02x?}", file.len(), from.collect::<Vec<_>>())
}

/// The library's reading as words, as the model has them.
fn words(read: &card::Patch) -> [u32; 12] {
    let slot = |at: usize| {
        let card::PatchSlot { mode, hundredths, ten_thousandths, amount, character } = read.slots[at];
        [mode, hundredths, ten_thousandths, amount.to_bits(), character.to_bits()]
    };
    let mut words = [0; 12];
    words[..2].copy_from_slice(&[read.number, read.at]);
    words[2..].copy_from_slice([slot(0), slot(1)].as_flattened());
    words
}

/// The whole numbers of the library's reading.
fn held(read: &card::Patch) -> Patch {
    read.slots.map(|slot| Slot { mode: slot.mode, hundredths: slot.hundredths, ten_thousandths: slot.ten_thousandths })
}

/// Some of the bytes read as a file by both. All bytes stay.
fn read_part(cells: &[u8], part: Range<usize>, tally: &mut Tally) -> Reading {
    let before = cells.to_vec();
    let file = &cells[part.clone()];
    let got = words(&card::patch_read(file));
    let want = files::read(&before[part]);
    let by_model = want.words();
    let shown = || shown(file, want.at);
    tally.case(got == by_model, || format!("reading of {}: {got:x?}, the model {by_model:x?}", shown()));
    tally.case(cells == before, || format!("what the reading leaves of {}", shown()));
    want
}

fn read(file: &[u8], tally: &mut Tally) -> Reading {
    read_part(&guarded(file), AROUND..AROUND + file.len(), tally)
}

/// `count` right files, as many damaged ones, and a fiftieth as many cut at every length; all files of up to two
/// bytes, and a record with each byte replaced by every other; a record with all choices of wrong fields, with all
/// lengths and all kinds; files about as long as the limit; all amounts and characters; `count` patches written, and
/// all ends of their numbers with buffers of many lengths; `count` patches and files written and read again; as many
/// pairs of files, and all pairs of some.
pub const PARTS: &[Part] = &[
    ("right patch files", reads::right),
    ("damaged patch files", reads::damaged),
    ("patch files cut at every length", reads::cut),
    ("all short patch files", reads::short),
    ("wrong fields of a record", reads::choices),
    ("all lengths and kinds of a record", reads::words),
    ("patch files at the limit", reads::limits),
    ("all amounts and characters", reads::floats),
    ("written patches", writes::written),
    ("ends of written numbers", writes::ends),
    ("patches written and read", writes::round_trips),
    ("pairs of patch files", pairs::drawn),
    ("all pairs of some patch files", pairs::all),
];
