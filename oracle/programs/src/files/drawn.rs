//! Runs of patch files drawn from the generator. They are made so that another
//! program can make the same, as in [`phases`](crate::phases).

use std::collections::BTreeSet;

use super::{MODE, MOST, Patch, RECORD, Record, WRITTEN, read, same, write};
use crate::{Generator, Hash};

/// The code of [`run`], less 80.
pub const FILE: usize = 0x62;

/// The bytes that a run's files are made in: eight records and a few more.
const BYTES: usize = 128;

/// The bytes of the buffer that a run writes to.
const BUFFER: usize = 40;

/// What has been done, and its answers: of a reading the number alone.
pub type Seen = BTreeSet<(&'static str, [u32; 2])>;

/// What is wrong with a record: the byte of it from which on two others stand,
/// and what they say.
type Fault = (usize, u16);

/// By a number below 16; from 6 on nothing is wrong.
fn fault(number: u32, value: u32) -> Option<Fault> {
    const LENGTHS: [u16; 8] = [0, 1, 2, 11, 13, 14, 268, 65_535];
    const KINDS: [u16; 4] = [0, 2, 257, 65_535];
    let value = value as usize;
    match number {
        0 => Some((0, LENGTHS[value % 8])),
        1 => Some((2, KINDS[value % 4])),
        2 => Some((4, 2)),
        3 => Some((4, 256 * (MODE as u16 + 1) + 1)),
        4 => Some((6, MOST as u16 + 1)),
        5 => Some((8, MOST as u16 + 1)),
        _ => None,
    }
}

/// A serial: one of five, or any.
fn serial(draw: u32) -> u32 {
    match draw >> 29 {
        0 => 0,
        1 | 2 => 1,
        3 | 4 => 5,
        5 => 0x0100_0000,
        6 => u32::MAX,
        _ => draw,
    }
}

/// Choices of serials for a file of many records, so that most come again;
/// some of them differ in one byte.
const SERIALS: [&[u32]; 8] = [
    &[0],
    &[0, 1],
    &[5, 5, 3],
    &[0, u32::MAX],
    &[u32::MAX - 1, u32::MAX],
    &[0x00ff, 0x0100, 0x0001],
    &[0xffff, 0x0001_0000, 0x0100],
    &[0x7fff_ffff, 0x8000_0000, 0x0100_0000],
];

/// Right records, with a few serials or with any; of both slots or of one.
#[must_use]
pub fn records(generator: &mut Generator, count: usize) -> Vec<Record> {
    let [slots, choice] = [0; 2].map(|_: u32| generator.draw() >> 28);
    let serials = SERIALS.get(choice as usize);
    let mut record = || {
        let [fields, numbers, last] = [0; 3].map(|_: u32| generator.draw());
        let serial = serials.map_or(serial(last), |few| few[last as usize % few.len()]);
        let record = Record::of(fields, numbers, serial);
        let slot = if slots < 2 { slots as u8 } else { record.slot };
        Record { slot, ..record }
    };
    (0..count).map(|_| record()).collect()
}

/// What a turn of a run is made of, beside its records.
struct Draws {
    how: u32,
    place: u32,
    value: u32,
    other: u32,
}

impl Draws {
    /// Four draws, in the order of the fields.
    fn new(generator: &mut Generator) -> Self {
        let [how, place, value, other] = [0; 4].map(|_: u32| generator.draw());
        Self {
            how,
            place,
            value,
            other,
        }
    }

    fn records(&self) -> usize {
        (self.how % 9) as usize
    }

    /// Puts right records, three draws each.
    fn put_records(&self, generator: &mut Generator, bytes: &mut [u8]) {
        for record in bytes.chunks_exact_mut(RECORD).take(self.records()) {
            let [fields, numbers, last] = [0; 3].map(|_: u32| generator.draw());
            record.copy_from_slice(&Record::of(fields, numbers, serial(last)).bytes());
        }
    }

    /// Puts what is wrong into a record.
    fn put(&self, fault: Option<Fault>, place: u32, bytes: &mut [u8]) {
        if let Some((offset, word)) = fault {
            let at = RECORD * (place as usize % self.records().max(1)) + offset;
            bytes[at..at + 2].copy_from_slice(&word.to_le_bytes());
        }
    }

    /// How many bytes the file has.
    fn length(&self) -> usize {
        let [end, by] = [RECORD * self.records(), (self.place >> 8) as usize % 16];
        match self.how >> 20 & 15 {
            0 => end.saturating_sub(by),
            1 => end + by,
            _ => end,
        }
    }

    /// A file with up to two faults.
    fn file<'a>(&self, generator: &mut Generator, bytes: &'a mut [u8]) -> &'a [u8] {
        let [first, second] = [
            fault(self.how >> 28, self.value),
            fault(self.how >> 24 & 15, self.value >> 8),
        ];
        self.put_records(generator, bytes);
        self.put(first, self.place, bytes);
        self.put(second, self.place >> 16, bytes);
        &bytes[..self.length()]
    }

    /// The patch as a writer is given it: one time of three out of range.
    fn given(&self, [mut slot0, mut slot1]: Patch) -> Patch {
        match self.value >> 28 {
            0 => slot0.mode = MODE + 1,
            1 => slot0.hundredths = MOST + 1,
            2 => slot0.ten_thousandths = MOST + 1,
            3 => slot1.mode = MODE + 1,
            4 => slot1.hundredths = MOST + 1,
            5 => slot1.ten_thousandths = MOST + 1,
            _ => {}
        }
        [slot0, slot1]
    }

    /// How many bytes of its buffer a writer is lent.
    fn lent(&self) -> usize {
        match self.value >> 24 & 7 {
            0 => (self.place >> 24) as usize % WRITTEN,
            1 => WRITTEN,
            _ => BUFFER,
        }
    }

    /// One time of four a byte of what was written is replaced.
    fn change(&self, written: &mut [u8]) {
        if self.other >> 30 == 0 {
            written[self.other as usize % WRITTEN] = (self.other >> 8) as u8;
        }
    }
}

/// The hash of `count` turns drawn from `seed`. Each makes a file, reads it,
/// writes its patch and compares both files; the buffers stay as the turns
/// before it have left them.
pub fn run(seed: u32, count: u32, seen: &mut Seen) -> u64 {
    let mut generator = Generator(seed);
    let mut hash = Hash::default();
    let mut bytes = [0; BYTES];
    let mut buffer = [0; BUFFER];
    for _ in 0..count {
        let draws = Draws::new(&mut generator);
        let file = draws.file(&mut generator, &mut bytes);
        let reading = read(file);
        let answer = write(&draws.given(reading.patch), &mut buffer[..draws.lent()]);
        let written = buffer;
        draws.change(&mut buffer);
        let other = &buffer[..WRITTEN];
        let compared = [same(file, other), same(other, file)];

        seen.extend([("read", [reading.number, 0]), ("written", answer)]);
        seen.extend(compared.map(|answer| ("compared", answer)));
        let words = reading.words().into_iter().chain(answer);
        let words = words.chain(written.map(u32::from));
        words
            .chain(compared.into_iter().flatten())
            .for_each(|word| hash.fold(word));
    }
    hash.0
}
