//! What is done to a right file.

use programs::Generator;
use programs::files::{RECORD, Record};

/// Damages a file in the record that starts at a place; the file may be empty.
pub type Damage = fn(&mut Vec<u8>, usize, &mut Generator);

/// What takes the place of a length and of a kind.
pub const LENGTHS: [u16; 9] = [0, 1, 2, 11, 12, 13, 14, 268, u16::MAX];
pub const KINDS: [u16; 5] = [0, 1, 2, 257, u16::MAX];

/// Above 10,000, also by the high or the low byte alone.
const NUMBERS: [u16; 4] = [10_001, 10_240, 32_768, u16::MAX];

fn below(g: &mut Generator, count: usize) -> usize {
    (g.draw() >> 8) as usize % count
}

fn one<T: Copy>(of: &[T], g: &mut Generator) -> T {
    of[below(g, of.len())]
}

/// Bytes in the place of others, as far as the file goes.
fn put(file: &mut [u8], at: usize, bytes: &[u8]) {
    for (to, &byte) in file.iter_mut().skip(at).zip(bytes) {
        *to = byte;
    }
}

fn put_two(file: &mut [u8], at: usize, word: u16) {
    put(file, at, &word.to_le_bytes());
}

/// Bytes put in before others.
fn insert(file: &mut Vec<u8>, at: usize, bytes: impl IntoIterator<Item = u8>) {
    let at = at.min(file.len());
    file.splice(at..at, bytes);
}

/// Another record, whole, of an unknown kind and any length.
fn unknown(g: &mut Generator) -> Vec<u8> {
    let length = 2 + below(g, 40);
    let kind = one(&[0, 2, 257, u16::MAX], g);
    let body = (2..length).map(|_| g.draw() as u8);
    [length as u16, kind].into_iter().flat_map(u16::to_le_bytes).chain(body).collect()
}

fn swap(file: &mut [u8], a: usize, b: usize) {
    if a != b && a.max(b) + RECORD <= file.len() {
        let (before, after) = file.split_at_mut(a.max(b));
        before[a.min(b)..][..RECORD].swap_with_slice(&mut after[..RECORD]);
    }
}

/// In one place each; some leave the file a right one.
pub const DAMAGES: [Damage; 16] = [
    |file, at, g| {
        let at = at + below(g, RECORD);
        let bit = 1 << below(g, 8);
        let flipped = file.get(at).map(|byte| byte ^ bit);
        put(file, at, flipped.as_slice());
    },
    |file, at, g| {
        let byte = g.draw() as u8;
        put(file, at + below(g, RECORD), &[byte]);
    },
    |file, at, g| put_two(file, at, one(&LENGTHS, g)),
    |file, at, g| put_two(file, at, g.draw() as u16),
    |file, at, g| put_two(file, at + 2, one(&KINDS, g)),
    |file, at, g| put(file, at + 4, &[one(&[2, 128, 255], g)]),
    |file, at, g| put(file, at + 5, &[one(&[70, 71, 128, 255], g)]),
    |file, at, g| put_two(file, at + 6, one(&NUMBERS, g)),
    |file, at, g| put_two(file, at + 8, one(&NUMBERS, g)),
    // at its end: any bytes, zeros, and a right record's first bytes
    |file, _, g| file.extend((0..1 + below(g, 30)).map(|_| g.draw() as u8)),
    |file, _, g| file.resize(file.len() + 1 + below(g, 30), 0),
    |file, _, g| {
        let record = Record::of(g.draw(), g.draw(), g.draw()).bytes();
        file.extend(&record[..1 + below(g, RECORD)]);
    },
    |file, _, g| file.truncate(file.len() - below(g, 2 * RECORD).min(file.len())),
    // inside: a byte more, a record of an unknown kind
    |file, at, g| insert(file, at + below(g, RECORD), [g.draw() as u8]),
    |file, at, g| insert(file, at, unknown(g)),
    // two records change places
    |file, at, g| {
        let other = place(file, g);
        swap(file, at, other);
    },
];

/// Where one of the file's records starts.
pub fn place(file: &[u8], g: &mut Generator) -> usize {
    RECORD * below(g, (file.len() / RECORD).max(1))
}
