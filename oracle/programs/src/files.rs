//! Patch files as document 02 has them (E3): reading, writing, and when two
//! hold the same patch. The Rust has none, so there is no oracle for them:
//! this is a model, written from the text. It splits the whole file first and
//! then looks each slot up among all its records.

mod drawn;

pub use drawn::{FILE, Seen, records, run};

/// The most bytes that a file has.
pub const LIMIT: usize = 65_536;

/// The bytes of a record of kind 1.
pub const RECORD: usize = 14;

/// The bytes that a writer emits.
pub const WRITTEN: usize = 2 * RECORD;

/// The highest mode, and the highest amount and character.
pub const MODE: u32 = 69;
pub const MOST: u32 = 10_000;

/// What a slot holds, in a file's whole numbers.
#[derive(Clone, Copy, Debug, Default, PartialEq, Eq)]
pub struct Slot {
    pub mode: u32,
    pub hundredths: u32,
    pub ten_thousandths: u32,
}

impl Slot {
    /// The card's amount, in percent.
    #[must_use]
    pub fn amount(&self) -> f32 {
        self.hundredths as f32 / 100.0
    }

    /// The card's character.
    #[must_use]
    pub fn character(&self) -> f32 {
        self.ten_thousandths as f32 / 10_000.0
    }

    fn is_in_range(&self) -> bool {
        self.mode <= MODE && self.hundredths <= MOST && self.ten_thousandths <= MOST
    }

    /// Its numbers and the patterns of its floats.
    fn words(&self) -> [u32; 5] {
        [
            self.mode,
            self.hundredths,
            self.ten_thousandths,
            self.amount().to_bits(),
            self.character().to_bits(),
        ]
    }
}

/// Slot 0 and slot 1.
pub type Patch = [Slot; 2];

/// A record of the size that kind 1 has, right or wrong.
#[derive(Clone, Copy, Debug, PartialEq, Eq)]
pub struct Record {
    pub length: u16,
    pub kind: u16,
    pub slot: u8,
    pub mode: u8,
    pub hundredths: u16,
    pub ten_thousandths: u16,
    pub serial: u32,
}

impl Record {
    /// A right one, made of three words.
    #[must_use]
    pub fn of(fields: u32, numbers: u32, serial: u32) -> Self {
        Self {
            length: 12,
            kind: 1,
            slot: (fields % 2) as u8,
            mode: (fields / 256 % (MODE + 1)) as u8,
            hundredths: number(numbers as u16),
            ten_thousandths: number((numbers >> 16) as u16),
            serial,
        }
    }

    #[must_use]
    pub fn bytes(&self) -> [u8; RECORD] {
        let [l0, l1] = self.length.to_le_bytes();
        let [k0, k1] = self.kind.to_le_bytes();
        let [h0, h1] = self.hundredths.to_le_bytes();
        let [t0, t1] = self.ten_thousandths.to_le_bytes();
        let [s0, s1, s2, s3] = self.serial.to_le_bytes();
        [
            l0, l1, k0, k1, self.slot, self.mode, h0, h1, t0, t1, s0, s1, s2, s3,
        ]
    }
}

/// An amount or a character: often 0 or the highest.
fn number(word: u16) -> u16 {
    match word >> 13 {
        0 => 0,
        1 => MOST as u16,
        _ => word % (MOST as u16 + 1),
    }
}

/// A file of these records.
#[must_use]
pub fn bytes(records: &[Record]) -> Vec<u8> {
    let records: Vec<[u8; RECORD]> = records.iter().map(Record::bytes).collect();
    records.as_flattened().to_vec()
}

/// What reading answers: the number that turns the file away, the byte at
/// which its record starts and zeros, or 0 twice and the patch.
#[derive(Clone, Copy, Debug, Default, PartialEq, Eq)]
pub struct Reading {
    pub number: u32,
    pub at: u32,
    pub patch: Patch,
}

impl Reading {
    fn refused(number: u32, at: usize) -> Self {
        Self {
            number,
            at: at as u32,
            ..Self::default()
        }
    }

    /// Its number, its place and both slots' words.
    #[must_use]
    pub fn words(&self) -> [u32; 12] {
        let mut words = [0; 12];
        words[..2].copy_from_slice(&[self.number, self.at]);
        words[2..].copy_from_slice(self.patch.map(|slot| slot.words()).as_flattened());
        words
    }
}

/// What the lengths cut a file into: the byte at which each record starts, and
/// what follows its length; of a record cut short, the last, nothing.
fn split(file: &[u8]) -> impl Iterator<Item = (usize, Option<&[u8]>)> {
    let mut rest = file;
    std::iter::from_fn(move || {
        let at = file.len() - rest.len();
        let is_left = !rest.is_empty();
        let cut = rest.split_first_chunk().and_then(|(&length, rest)| {
            rest.split_at_checked(usize::from(u16::from_le_bytes(length)))
        });
        rest = cut.map_or(&[], |(_, rest)| rest);
        is_left.then_some((at, cut.map(|(record, _)| record)))
    })
}

/// A right record's fields.
struct Entry {
    slot: u8,
    fields: Slot,
    serial: u32,
}

/// Those of what follows a length, or the number that it is turned away with.
fn entry(record: Option<&[u8]>) -> Result<Entry, u32> {
    let Some(&[k0, k1, ref body @ ..]) = record else {
        return Err(9);
    };
    match (u16::from_le_bytes([k0, k1]), body) {
        (1, &[slot, mode, h0, h1, t0, t1, s0, s1, s2, s3]) => {
            let fields = Slot {
                mode: mode.into(),
                hundredths: u16::from_le_bytes([h0, h1]).into(),
                ten_thousandths: u16::from_le_bytes([t0, t1]).into(),
            };
            if slot > 1 || !fields.is_in_range() {
                return Err(11);
            }
            Ok(Entry {
                slot,
                fields,
                serial: u32::from_le_bytes([s0, s1, s2, s3]),
            })
        }
        (1, _) => Err(9),
        _ => Err(10),
    }
}

/// What a slot holds: the highest serial's record, the last of those.
fn held(entries: &[Entry], slot: u8) -> Slot {
    let entries = entries.iter().enumerate();
    entries
        .filter(|(_, entry)| entry.slot == slot)
        .max_by_key(|&(place, entry)| (entry.serial, place))
        .map_or(Slot::default(), |(_, entry)| entry.fields)
}

#[must_use]
pub fn read(file: &[u8]) -> Reading {
    if file.len() > LIMIT {
        return Reading::refused(9, 0);
    }
    let entries: Result<Vec<Entry>, Reading> = split(file)
        .map(|(at, record)| entry(record).map_err(|number| Reading::refused(number, at)))
        .collect();
    match entries {
        Ok(entries) => Reading {
            patch: [0, 1].map(|slot| held(&entries, slot)),
            ..Reading::default()
        },
        Err(refused) => refused,
    }
}

/// Writes a patch: the number and the bytes that it took, none if it is
/// refused.
pub fn write(patch: &Patch, file: &mut [u8]) -> [u32; 2] {
    if !patch.iter().all(Slot::is_in_range) {
        return [11, 0];
    }
    let Some(file) = file.first_chunk_mut::<WRITTEN>() else {
        return [8, 0];
    };
    let record = |slot: usize| Record {
        length: 12,
        kind: 1,
        slot: slot as u8,
        mode: patch[slot].mode as u8,
        hundredths: patch[slot].hundredths as u16,
        ten_thousandths: patch[slot].ten_thousandths as u16,
        serial: 1,
    };
    file.copy_from_slice([0, 1].map(|slot| record(slot).bytes()).as_flattened());
    [0, WRITTEN as u32]
}

/// Whether two files hold the same patch: the number of the first that is
/// turned away and 0, or 0 and 1 if they do.
#[must_use]
pub fn same(a: &[u8], b: &[u8]) -> [u32; 2] {
    let readings = [a, b].map(read);
    if let Some(refused) = readings.iter().find(|reading| reading.number != 0) {
        return [refused.number, 0];
    }
    let compared = readings.map(|reading| reading.patch.map(|slot| (slot.mode, slot.hundredths)));
    [0, u32::from(compared[0] == compared[1])]
}
