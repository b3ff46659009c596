//! A list of calls as people see it: in words with its answers, from words back to frames, and as a
//! picture.
//!
//! What a frame means and what the core does are told by the second implementation in
//! tests/reference. The answers are always those of the program that was run.

pub mod answers;
pub mod explain;
pub mod handle;
pub mod number;
pub mod ops;
pub mod picture;
pub mod program;
pub mod refusals;
pub mod text;
pub mod thread;
pub mod words;
