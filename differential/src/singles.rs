//! The calls about one lane and about a block's spans against the oracle: read lists, shaped samples,
//! spans and stretches, and every refusal of theirs.

use crate::leaves::patterns;
use crate::lending::{Floats, Lending, pair};
use crate::phases::tables;
use crate::tally::{Part, Tally};
use crate::{probe, refusals};
use programs::singles::{Buffer, Call, Draws, Kind, Most};
use programs::{Generator, waves};
use ruled::api;

/// Most calls are small, so that there are many; some have up to 64 lanes or some hundred frames.
fn most(g: &mut Generator) -> Most {
    let how = g.draw() >> 8;
    Most {
        lanes: [64, 9, 9, 4][how as usize & 3],
        frames: [400, 72, 72, 72][(how >> 2) as usize & 3],
    }
}

/// Buffers for a drawn call, with a curve that isn't drawn.
fn lending(kind: Kind, call: &Call, draws: &Draws, floats: Floats, curve: &[f32], g: &mut Generator) -> Lending {
    let fixed = |buffer| if buffer == Buffer::Curve { curve } else { &[] };
    Lending::drawn(kind, call, draws, floats, fixed, g)
}

/// How many calls are made on the same buffers.
const CALLS: u32 = 6;

/// Three frames in a row of a lane and of the one after it, in turn; the words go on by the step, or
/// are drawn.
fn in_a_row(kind: Kind, part: u32, count: u64, tally: &mut Tally) {
    let mut g = tally.generator(part);
    let curves = tables(g.draw());
    for i in 0..count {
        let (floats, most) = (Floats::draw(&mut g), most(&mut g));
        let drawn = Draws::new(&mut g);
        let start = Call::of(&drawn, pair(i), floats.is_wild(), most);
        let curve = &curves[(drawn.how >> 21) as usize % curves.len()];
        let mut lending = lending(kind, &start, &drawn, floats, curve, &mut g);
        let mut call = start;
        for k in 0..CALLS {
            lending.compare(&call, tally);
            let fresh = Draws::new(&mut g);
            let next = Call::of(&fresh, start.modes, floats.is_wild(), most);
            let word = call.word.wrapping_add(call.step);
            call = Call {
                lane: (start.lane + (k + 1) % 2) % start.active,
                frame: (start.frame + k.div_ceil(2)) % start.rendered(),
                word: if fresh.how >> 21 & 1 == 0 { word } else { next.word },
                step: if fresh.how >> 22 & 7 == 0 { next.step } else { call.step },
                x: waves::near(fresh.how >> 25, call.x).unwrap_or(next.x),
                ..start
            };
        }
    }
}

fn reads(count: u64, tally: &mut Tally) {
    in_a_row(Kind::Reads, 0x9e37_79b9, count, tally);
}

fn samples(count: u64, tally: &mut Tally) {
    in_a_row(Kind::Sample, 0x85eb_ca6b, count, tally);
}

/// The blocks about whose ends sub-blocks begin.
const BLOCKS: [u32; 13] = [0, 1, 2, 31, 32, 33, 63, 64, 65, 95, 96, 97, 300];

fn spans(count: u64, tally: &mut Tally) {
    let mut g = tally.generator(0xc2b2_ae35);
    let curves = tables(g.draw());
    for i in 0..count {
        let (floats, most) = (Floats::draw(&mut g), most(&mut g));
        let drawn = Draws::new(&mut g);
        let mut call = Call::of(&drawn, pair(i), floats.is_wild(), most);
        if drawn.range >> 31 == 0 {
            call.frames = BLOCKS[(drawn.range >> 8) as usize % BLOCKS.len()];
        }
        if drawn.range & 0xf0 == 0 {
            call.active = 0;
        }
        let curve = &curves[(drawn.how >> 21) as usize % curves.len()];
        lending(Kind::Prepare, &call, &drawn, floats, curve, &mut g).compare(&call, tally);
    }
}

/// Some ranges of a block and some frames of each: none, one, all, those to a sub-block's end, or some.
fn stretches(count: u64, tally: &mut Tally) {
    let mut g = tally.generator(0x27d4_eb2f);
    for _ in 0..count / 4 {
        let (floats, most) = (Floats::draw(&mut g), Most { frames: 400, ..most(&mut g) });
        let mut drawn = Draws::new(&mut g);
        let mut call = Call::of(&drawn, [0; 2], floats.is_wild(), most);
        let mut lending = lending(Kind::Stretch, &call, &drawn, floats, &[], &mut g);
        for _ in 0..CALLS {
            lending.compare(&call, tally);
            // the same sizes
            drawn = Draws { sizes: drawn.sizes, ..Draws::new(&mut g) };
            call = Call::of(&drawn, [0; 2], floats.is_wild(), most);
        }
    }
}

fn refused(count: u64, tally: &mut Tally) {
    refusals::compare(&Kind::SINGLES, count, tally);
}

fn fm_exponential(count: u64, tally: &mut Tally) {
    for p in patterns(16 * count, tally) {
        let s = f32::from_bits(p);
        tally.same("fm_exponential", p, probe::probe_fm_exponential(s), api::fm_exponential(s));
    }
}

/// `count` settings of six calls each for read lists and for samples, as many blocks' spans, a quarter as
/// many for stretches; every cause of a refusal, alone and with every other, and some drawn together.
pub const PARTS: &[Part] = &[
    ("read lists of a lane", reads),
    ("shaped samples of a lane", samples),
    ("spans", spans),
    ("stretches", stretches),
    ("fm_exponential", fm_exponential),
    ("refusals of the single calls", refused),
];
