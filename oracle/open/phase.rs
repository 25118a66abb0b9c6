//! phase.rs on one lane. Modes go by number.

use super::{Mode, ReadList, SlotView};

/// A read list as the slots build it.
#[derive(Clone, Copy, Debug, PartialEq)]
pub struct List {
    pub word: [u32; 4],
    pub gain: [f32; 4],
    pub count: usize,
    pub weighted: bool,
}

impl From<ReadList<f32>> for List {
    fn from(list: ReadList<f32>) -> Self {
        Self {
            word: list.word,
            gain: list.gain,
            count: list.count,
            weighted: list.weighted,
        }
    }
}

impl From<List> for ReadList<f32> {
    fn from(list: List) -> Self {
        Self {
            word: list.word,
            gain: list.gain,
            count: list.count,
            weighted: list.weighted,
        }
    }
}

/// A slot: its mode's number, its character and the curve's table.
#[derive(Clone, Copy, Debug)]
pub struct Slot<'a> {
    pub mode: u32,
    pub character: f32,
    pub curve: &'a [f32],
}

impl<'a> Slot<'a> {
    fn view(&self) -> SlotView<'a> {
        SlotView {
            mode: mode(self.mode),
            character: self.character,
            curve: self.curve,
        }
    }
}

fn mode(number: u32) -> Mode {
    Mode::ALL[number as usize]
}

#[must_use]
pub fn start(word: u32) -> List {
    ReadList::start(word).into()
}

#[must_use]
pub fn empty(like: u32) -> List {
    ReadList::<f32>::empty(like).into()
}

#[must_use]
pub fn push(list: &List, word: u32, gain: f32) -> List {
    let mut list = ReadList::from(*list);
    list.push(word, gain);
    list.into()
}

#[must_use]
pub fn push_pair(list: &List, a: u32, wa: f32, b: u32, gain: f32) -> List {
    let mut list = ReadList::from(*list);
    list.push_pair(a, wa, b, gain);
    list.into()
}

#[must_use]
pub fn apply(slot: &Slot<'_>, amount: f32, half: f32, list: &List) -> List {
    super::apply(&slot.view(), amount, half, &(*list).into()).into()
}

/// What `map` makes of one read, put on to the end of `out`.
#[must_use]
pub fn map(slot: &Slot<'_>, amount: f32, half: f32, word: u32, gain: f32, out: &List) -> List {
    let mut out = (*out).into();
    super::map(&slot.view(), amount, half, word, gain, &mut out);
    out.into()
}

#[must_use]
pub fn shift(list: &List, offset: u32) -> List {
    let mut list = (*list).into();
    super::shift::<f32>(&mut list, offset);
    list.into()
}

#[inline]
#[must_use]
pub fn unit(word: u32) -> f32 {
    super::unit(word)
}

#[inline]
#[must_use]
pub fn wrap(x: f32) -> f32 {
    super::wrap(x)
}

#[inline]
#[must_use]
pub fn smooth_box(v: f32, half_length: f32, half: f32) -> f32 {
    super::smooth_box(v, half_length, half)
}

#[inline]
#[must_use]
pub fn lean_offset(x: f32, beta: f32) -> f32 {
    super::lean_offset(x, beta)
}

#[inline]
#[must_use]
pub fn pinch_strength(mode_number: u32, a: f32) -> f32 {
    super::pinch_strength(mode(mode_number), a)
}

#[inline]
#[must_use]
pub fn lean_strength(mode_number: u32, a: f32) -> f32 {
    super::lean_strength(mode(mode_number), a)
}

#[inline]
#[must_use]
pub fn lean_steepest(beta: f32) -> f32 {
    super::lean_steepest(beta)
}

/// `curve` is the remap curve's steepest slope.
#[inline]
#[must_use]
pub fn stretch(mode_number: u32, amount: f32, curve: f32) -> f32 {
    super::stretch(mode(mode_number), amount, curve)
}
