//! Patch files read, against a plain reader in Rust, since the crate has none.

use super::clock::{Times, medians};
use super::markdown;
use crate::card::{self, Patch, PatchSlot};
use programs::Generator;
use programs::files::{LIMIT, RECORD, Record, bytes, records};
use std::hint::black_box;

/// How many records a round reads at least, and the rounds.
const ROUND: usize = 40_000;
const ROUNDS: usize = 301;

const OFF: PatchSlot = PatchSlot { mode: 0, hundredths: 0, ten_thousandths: 0, amount: 0.0, character: 0.0 };

fn refused(number: u32, at: usize) -> Patch {
    Patch { number, at: at as u32, slots: [OFF; 2] }
}

fn word(bytes: &[u8], at: usize) -> u32 {
    u16::from_le_bytes([bytes[at], bytes[at + 1]]).into()
}

/// The number of the record that some bytes start with, or 0.
fn number(bytes: &[u8]) -> u32 {
    if bytes.len() < 2 {
        return 9;
    }
    let length = word(bytes, 0) as usize;
    if bytes.len() < 2 + length || length < 2 {
        return 9;
    }
    match (word(bytes, 2), length) {
        (1, 12) => {
            let is_right = bytes[4] <= 1 && bytes[5] <= 69 && word(bytes, 6) <= 10_000 && word(bytes, 8) <= 10_000;
            if is_right { 0 } else { 11 }
        }
        (1, _) => 9,
        _ => 10,
    }
}

/// Record after record, with what both slots hold.
#[inline(never)]
fn read(file: &[u8]) -> Patch {
    if file.len() > LIMIT {
        return refused(9, 0);
    }
    let mut slots = [(OFF, 0); 2];
    let mut at = 0;
    while at < file.len() {
        let bytes = &file[at..];
        let number = number(bytes);
        if number != 0 {
            return refused(number, at);
        }
        let serial = word(bytes, 12) << 16 | word(bytes, 10);
        let (held, highest) = &mut slots[usize::from(bytes[4])];
        if serial >= *highest {
            *highest = serial;
            held.mode = bytes[5].into();
            held.hundredths = word(bytes, 6);
            held.ten_thousandths = word(bytes, 8);
        }
        at += RECORD;
    }
    let for_card = |(held, _): (PatchSlot, u32)| PatchSlot {
        amount: held.hundredths as f32 / 100.0,
        character: held.ten_thousandths as f32 / 10_000.0,
        ..held
    };
    Patch { number: 0, at: 0, slots: slots.map(for_card) }
}

/// A right file of so many records: as a maker appends them, slots in turn and serials rising, or drawn ones. Those
/// make branches that a processor guesses badly, on both sides, so that their ratio goes by how a reader is written.
fn file(count: usize, is_drawn: bool, g: &mut Generator) -> Vec<u8> {
    let mut records = records(g, count);
    if !is_drawn {
        for (i, record) in records.iter_mut().enumerate() {
            *record = Record { slot: i as u8 % 2, serial: i as u32, ..*record };
        }
    }
    bytes(&records)
}

fn measured((count, is_drawn): (usize, bool)) -> (String, Times) {
    let mut g = Generator(0x5eed);
    let files: Vec<Vec<u8>> = (0..ROUND.div_ceil(count)).map(|_| file(count, is_drawn, &mut g)).collect();
    let times = medians(
        ROUNDS,
        (files.len() * count) as f64,
        || {
            for file in &files {
                black_box(card::patch_read(black_box(file)));
            }
        },
        || {
            for file in &files {
                black_box(read(black_box(file)));
            }
        },
    );
    assert!(files.iter().all(|file| card::patch_read(file) == read(file)), "files of {count} records");
    (format!("{count}, {}", if is_drawn { "drawn" } else { "in turn" }), times)
}

pub fn print() {
    let title = "Right patch files, a record: slots and serials drawn, or slots in turn and serials rising; the crate\n\
        has no patch files, the Rust's side is a plain reader:";
    let all = [2, LIMIT / RECORD].into_iter().flat_map(|count| [(count, false), (count, true)]);
    markdown::times(title, "records", all.map(measured));
}
