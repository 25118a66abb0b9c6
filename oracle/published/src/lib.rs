//! The wavetable crate's shaper, its six files as published, over stand-ins
//! for the rest of the crate. Each file ends with one added module that
//! opens its private functions to tests.

#![allow(
    dead_code,
    reason = "the published text has parts that only the crate itself uses"
)]

pub use ::osc::{self, CYCLE, Table};

pub mod shaper;

pub use shaper::open as api;
