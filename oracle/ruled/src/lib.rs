//! The wavetable crate's shaper with the added rules of documents 01 and 02
//! put in: what the port is compared with. Every line that differs from the
//! published text is marked `added:` with the rule it serves; each file ends
//! with one added module that opens its private functions to tests.

#![allow(
    dead_code,
    reason = "the published text has parts that only the crate itself uses"
)]

pub use ::osc::{self, CYCLE, Table};

pub mod powers;
pub mod shaper;

pub use shaper::open as api;
