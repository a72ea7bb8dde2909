//! What stands outside of the proved crates: a second implementation of the byte formats, written
//! from `docs/FORMAT.md` and `docs/REFUSALS.md` alone, random inputs for a comparison of the two,
//! and hand-written fast code as a measure of speed.

pub mod hand;
pub mod inputs;
pub mod second;
