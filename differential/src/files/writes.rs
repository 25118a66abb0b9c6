//! Patches that are written, and read again.

use super::reads::{file, many};
use super::{held, shown, words};
use crate::card;
use crate::guards::GUARDS;
use crate::tally::Tally;
use programs::Generator;
use programs::files::{self, MODE, MOST, Patch, Slot, WRITTEN};

/// Any bytes: so many to be lent, with guards around them.
fn cells(length: usize, g: &mut Generator) -> Vec<u8> {
    (0..length + 2 * GUARDS).map(|_| g.draw() as u8).collect()
}

/// A patch written by both over the same bytes, and the bytes that are left: those past it and around the lent ones;
/// of a refused call all.
fn write(patch: &Patch, before: &[u8], tally: &mut Tally) {
    let lent = GUARDS..before.len() - GUARDS;
    let [mut ours, mut theirs] = [before.to_vec(), before.to_vec()];
    let got = card::patch_write(patch, &mut ours[lent.clone()]);
    let got = [got.number, got.bytes];
    let want = files::write(patch, &mut theirs[lent.clone()]);
    let shown = || format!("{patch:?} to {} bytes", lent.len());
    tally.case(got == want, || format!("writing of {}: {got:?}, the model {want:?}", shown()));
    let wrong = (0..ours.len()).find(|&at| ours[at] != theirs[at]);
    tally.case(wrong.is_none(), || format!("writing of {}: byte {wrong:?}", shown()));
    let is_left = |at| want[0] != 0 || !(GUARDS..GUARDS + WRITTEN).contains(&at);
    let changed = (0..ours.len()).find(|&at| ours[at] != before[at] && is_left(at));
    tally.case(changed.is_none(), || format!("what the writing leaves of {}: byte {changed:?}", shown()));
}

/// A number up to the highest, that one or 0.
fn number(most: u32, g: &mut Generator) -> u32 {
    let [how, draw] = [g.draw() >> 29, g.draw() >> 8];
    match how {
        0 => 0,
        1 => most,
        _ => draw % (most + 1),
    }
}

/// A patch that can be written.
pub fn patch(g: &mut Generator) -> Patch {
    [0; 2].map(|_| Slot { mode: number(MODE, g), hundredths: number(MOST, g), ten_thousandths: number(MOST, g) })
}

/// Now and then a number out of range, and a buffer that is short or very long.
pub fn written(count: u64, tally: &mut Tally) {
    let mut g = tally.generator(0x3956_c25b);
    for _ in 0..count {
        let mut patch = patch(&mut g);
        let [how, draw, length] = [g.draw() >> 8, g.draw(), g.draw() >> 8];
        let slot = &mut patch[how as usize >> 4 & 1];
        match how & 15 {
            0 => slot.mode = draw,
            1 => slot.hundredths = draw,
            2 => slot.ten_thousandths = draw,
            3 => slot.mode = MODE + 1 + draw % 256,
            4 => slot.hundredths = MOST + 1 + draw % 65_536,
            5 => slot.ten_thousandths = MOST + 1 + draw % 65_536,
            _ => {}
        }
        let length = match how >> 8 & 63 {
            0 => length % 70_000,
            1 => length % WRITTEN as u32,
            _ => length % 41,
        };
        write(&patch, &cells(length as usize, &mut g), tally);
    }
}

/// The lowest and the highest that pass, one above, one whose low byte or bytes would pass, the highest word.
const MODES: [u32; 5] = [0, MODE, MODE + 1, 256 + 21, u32::MAX];
const NUMBERS: [u32; 5] = [0, MOST, MOST + 1, 65_536 + 5_000, u32::MAX];

/// All choices of these for the six numbers, with buffers about as long as a patch; one patch with every length.
pub fn ends(_: u64, tally: &mut Tally) {
    let mut g = tally.generator(0x59f1_11f1);
    let slot =
        |at: usize| Slot { mode: MODES[at % 5], hundredths: NUMBERS[at / 5 % 5], ten_thousandths: NUMBERS[at / 25] };
    let patches = || (0..125 * 125).map(|at| [slot(at % 125), slot(at / 125)]);
    let some = [0, 1, 14, 27, 28, 29, 40].into_iter().flat_map(|length| patches().map(move |patch| (patch, length)));
    let right = [slot(6), slot(31)];
    let all = (0..=300).chain([65_535, 65_536, 65_537, 1 << 20]).map(|length| (right, length));
    for (patch, length) in some.chain(all) {
        write(&patch, &cells(length, &mut g), tally);
    }
}

/// Reading a written patch yields it.
fn read_again(patch: &Patch, tally: &mut Tally) {
    let mut file = [0; WRITTEN];
    let written = card::patch_write(patch, &mut file);
    let read = card::patch_read(&file);
    let is_same = [written.number, read.number, read.at] == [0; 3] && held(&read) == *patch;
    tally.case(is_same, || format!("{patch:?} written and read: {written:?}, {read:?}"));
}

/// What is written of a read file reads as the file does, and holds the same patch.
fn write_again(file: &[u8], tally: &mut Tally) {
    let read = card::patch_read(file);
    let mut again = [0; WRITTEN];
    let written = card::patch_write(&held(&read), &mut again);
    let [got, want] = [&card::patch_read(&again), &read].map(words);
    let is_same = written.number == 0 && got == want;
    tally.case(is_same, || format!("written after {}: {got:x?}, not {want:x?}", shown(file, 0)));
    let compared = [card::patch_same(file, &again), card::patch_same(&again, file)].map(|a| [a.number, a.same]);
    tally.case(compared == [[0, 1]; 2], || format!("its written form and {}: {compared:?}", shown(file, 0)));
}

/// Patches of all modes, amounts and characters, and drawn ones; then drawn files.
pub fn round_trips(count: u64, tally: &mut Tally) {
    let mut g = tally.generator(0x923f_82a4);
    let slot = |n: u32| Slot { mode: n % (MODE + 1), hundredths: n, ten_thousandths: MOST - n };
    (0..=MOST).for_each(|n| read_again(&[slot(n), slot(MOST - n)], tally));
    for _ in 0..count {
        read_again(&patch(&mut g), tally);
        let records = many(&mut g);
        write_again(&file(&mut g, records), tally);
    }
}
