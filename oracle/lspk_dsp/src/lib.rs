//! Stands in for the `lspk_dsp` crate, which isn't published: as much of
//! `simd` and `lfo` as the shaper names. No type implements [`simd::F32s`],
//! so none of the vector code can run; a shape is a lent table.

pub mod lfo;
pub mod simd;
