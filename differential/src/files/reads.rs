//! Files that are read.

use super::damages::{DAMAGES, KINDS, LENGTHS, place};
use super::{read, read_part, shown};
use crate::card::{self, PatchSlot};
use crate::tally::Tally;
use programs::Generator;
use programs::files::{LIMIT, MOST, RECORD, Record, bytes, records};

/// The most records of a right file.
const RECORDS: usize = LIMIT / RECORD;

/// None or few records, some hundred, any number and the most.
pub fn many(g: &mut Generator) -> usize {
    let [how, draw] = [g.draw() >> 26, g.draw() >> 8];
    match how {
        0 => RECORDS,
        1 => draw as usize % (RECORDS + 1),
        2..=7 => draw as usize % 301,
        _ => draw as usize % 13,
    }
}

/// A right file of so many records.
pub fn file(g: &mut Generator, count: usize) -> Vec<u8> {
    bytes(&records(g, count))
}

/// Of no record and of the most too.
pub fn right(count: u64, tally: &mut Tally) {
    let mut g = tally.generator(0x428a_2f98);
    let some = [0, 1, RECORDS - 1, RECORDS];
    for i in 0..count as usize {
        let records = some.get(i).copied().unwrap_or_else(|| many(&mut g));
        let reading = read(&file(&mut g, records), tally);
        tally.case(reading.number == 0, || format!("the model's reading of a right file: {reading:?}"));
    }
}

/// Every damage in turn, every other time with a second one, in the same record or in another.
pub fn damaged(count: u64, tally: &mut Tally) {
    let mut g = tally.generator(0x7137_4491);
    let mut seen = [0u64; 12];
    for i in 0..count as usize {
        let records = many(&mut g);
        let mut file = file(&mut g, records);
        let at = place(&file, &mut g);
        DAMAGES[i % DAMAGES.len()](&mut file, at, &mut g);
        let how = g.draw() >> 8;
        if how & 1 == 1 {
            let at = if how & 2 == 2 { at } else { place(&file, &mut g) };
            DAMAGES[(how >> 2) as usize % DAMAGES.len()](&mut file, at, &mut g);
        }
        seen[read(&file, tally).number as usize] += 1;
    }
    // a few files need not have every number
    let is_seen = count < 200 || [0, 9, 10, 11].iter().all(|&number: &usize| seen[number] > 0);
    tally.case(is_seen, || format!("readings by their number: {seen:?}"));
}

/// A file up to each of these ends, behind which it goes on.
fn cut_at(file: &[u8], ends: impl IntoIterator<Item = usize>, tally: &mut Tally) {
    for end in ends {
        read_part(file, 0..end, tally);
    }
}

/// Every length of files of up to 40 records, and those near both ends of the largest.
pub fn cut(count: u64, tally: &mut Tally) {
    let mut g = tally.generator(0xb5c0_fbcf);
    for _ in 0..count / 50 {
        let records = (g.draw() >> 8) as usize % 41;
        let file = file(&mut g, records);
        cut_at(&file, 0..=file.len(), tally);
    }
    let largest = file(&mut g, RECORDS);
    let near = 20 * RECORD;
    cut_at(&largest, (0..near).chain(largest.len() - near..=largest.len()), tally);
}

/// All files of no, one and two bytes, and all of one record that has 13 bytes of one whose fields are the highest.
pub fn short(_: u64, tally: &mut Tally) {
    let byte = || 0..=u8::MAX;
    let two = byte().flat_map(|low| byte().map(move |high| vec![low, high]));
    let few = [vec![]].into_iter().chain(byte().map(|byte| vec![byte])).chain(two);
    let right =
        Record { slot: 1, mode: 69, hundredths: 10_000, ten_thousandths: 10_000, ..Record::of(0, 0, 5) }.bytes();
    let replaced = (0..RECORD).flat_map(|at| {
        byte().map(move |byte| {
            let mut file = right.to_vec();
            file[at] = byte;
            file
        })
    });
    for file in few.chain(replaced) {
        read(&file, tally);
    }
}

/// A record with every choice of right and wrong fields and a right one behind it, at every length: in one record 9
/// comes before 10, and both before 11.
pub fn choices(_: u64, tally: &mut Tally) {
    let right = Record::of(0, 0, 0);
    let wrong = |at: usize| Record {
        length: LENGTHS[at % 9],
        kind: KINDS[at / 9 % 5],
        slot: [1, 2][at / 45 % 2],
        mode: [69, 70][at / 90 % 2],
        hundredths: [10_000, 10_001][at / 180 % 2],
        ten_thousandths: [10_000, 10_001][at / 360],
        serial: 1,
    };
    for at in 0..720 {
        cut_at(&bytes(&[wrong(at), right]), 0..=2 * RECORD, tally);
    }
}

/// Every length with a known kind and with an unknown one, and every kind.
pub fn words(_: u64, tally: &mut Tally) {
    let right = Record::of(0, 0, 0);
    let any = || 0..=u16::MAX;
    let lengths = any().flat_map(|length| [1, 7].map(|kind| Record { length, kind, ..right }));
    for record in lengths.chain(any().map(|kind| Record { kind, ..right })) {
        read(&bytes(&[record, right]), tally);
    }
}

/// A record of this kind and of so many bytes, zeros but for its length and kind.
fn plain(kind: u16, bytes: usize) -> Vec<u8> {
    let mut record = vec![0; bytes];
    record[..2].copy_from_slice(&((bytes - 2) as u16).to_le_bytes());
    record[2..4].copy_from_slice(&kind.to_le_bytes());
    record
}

/// What stands behind so many right records, and the number and place that the file is turned away with.
type Ending = (usize, Vec<u8>, [u32; 2]);

fn endings() -> Vec<Ending> {
    const LAST: u32 = 65_520;
    const END: u32 = 65_534;
    let bad_mode = Record { mode: 70, ..Record::of(0, 0, 0) }.bytes().to_vec();
    let mut endings = vec![
        (RECORDS, vec![], [0, 0]),
        (RECORDS, vec![12], [9, END]),
        (RECORDS, vec![0, 0], [9, END]),
        (RECORDS, vec![12, 0], [9, END]),
        (RECORDS, vec![2, 0], [9, END]),
        (RECORDS, vec![2, 0, 1], [9, 0]),
        (RECORDS, vec![2, 0, 7, 0], [9, 0]),
        (RECORDS - 1, bad_mode.clone(), [11, LAST]),
        (RECORDS - 1, [bad_mode, vec![1, 1]].concat(), [11, LAST]),
        (RECORDS - 1, plain(7, 15), [10, LAST]),
        (RECORDS - 1, plain(7, 16), [10, LAST]),
        (RECORDS - 1, plain(7, 17), [9, 0]),
        (RECORDS - 1, plain(1, 16), [9, LAST]),
        (RECORDS - 1, plain(1, 17), [9, 0]),
        // one record that is the whole file
        (0, plain(7, LIMIT), [10, 0]),
        (0, plain(7, LIMIT + 1), [9, 0]),
        (0, plain(1, LIMIT), [9, 0]),
        (0, [plain(7, 4), vec![0; LIMIT - 4]].concat(), [10, 0]),
        (0, [plain(7, 4), vec![0; LIMIT - 3]].concat(), [9, 0]),
    ];
    let longer = [1, 2, 100, 9_363, 70_000].map(|more| (RECORDS + more, vec![], [9, 0]));
    endings.extend(longer);
    endings
}

/// Files of 65,534 to 65,537 bytes and far longer ones, with numbers that are known without the model.
pub fn limits(_: u64, tally: &mut Tally) {
    let mut g = tally.generator(0xe9b5_dba5);
    for (records, ending, want) in endings() {
        let file = [file(&mut g, records), ending].concat();
        let reading = read(&file, tally);
        let got = card::patch_read(&file);
        let is_right = [got.number, got.at] == want && [reading.number, reading.at] == want;
        tally.case(is_right, || {
            format!("{records} records and then {}: {got:?}, known {want:?}", shown(&file, want[1]))
        });
    }
}

/// All amounts and characters: their bits, and that they rise, so that they are equal where their whole numbers are.
pub fn floats(_: u64, tally: &mut Tally) {
    let mut before = [-1.0; 2];
    for n in 0..=MOST as u16 {
        let file = Record { slot: 0, hundredths: n, ten_thousandths: n, ..Record::of(0, 0, 0) }.bytes();
        read(&file, tally);
        let PatchSlot { amount, character, .. } = card::patch_read(&file).slots[0];
        let got = [amount, character];
        let want = [f32::from(n) / 100.0, f32::from(n) / 10_000.0];
        let is_right = got.map(f32::to_bits) == want.map(f32::to_bits);
        tally.case(is_right, || format!("amount and character of {n}: {got:?}, by division {want:?}"));
        let is_higher = before[0] < got[0] && before[1] < got[1];
        tally.case(is_higher, || format!("amount and character of {n}: {got:?}, those before {before:?}"));
        before = got;
    }
}
