//! The block run against the oracle: ranges with the state carried on, and blocks with the spans that are
//! prepared for them; the run of one lane, for every lane in turn and by itself; a block's cuts against the
//! whole; every refusal.

mod cuts;
pub mod drawn;
mod lanes;
mod prepared;

use crate::lending::pair;
use crate::refusals;
use crate::tally::{Part, Tally};
use drawn::{Block, Tables};
use programs::singles::Kind;

/// Ranges of a block on the same buffers.
fn runs(count: u64, tally: &mut Tally) {
    let mut g = tally.generator(0x2c1b_3c6d);
    let tables = Tables::new(&mut g);
    for i in 0..count {
        let block = Block::draw(pair(i), &tables, &mut g);
        let mut lending = block.lend(&mut g);
        for call in block.runs(&mut g) {
            lending.fit_work(&call);
            lending.compare(&call, tally);
        }
    }
}

/// `count` blocks in ranges, as many by lanes and in cuts, and a third as many times three with their spans;
/// every cause of a refusal, alone and with every other, and some drawn together.
pub const PARTS: &[Part] = &[
    ("ranges of a block", runs),
    ("lanes one by one", lanes::compare),
    ("blocks and their cuts", cuts::compare),
    ("blocks with their spans", prepared::compare),
    ("refusals of the block run", |count, tally| refusals::compare(&[Kind::Run], count, tally)),
    ("refusals of a lane's run", |count, tally| refusals::compare(&[Kind::LaneRun], count, tally)),
];

/// `count` blocks of the most lanes and frames.
pub const LARGEST: &[Part] = &[("largest blocks", prepared::largest)];
