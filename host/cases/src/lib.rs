//! The cases of crates/ducklake/proofs/cases out of their files: the lists of lines, and the runs and calls that they are about.
#![forbid(unsafe_code)]

pub mod codes;
pub mod lists;
pub mod names;
pub mod runs;
pub mod terms;
