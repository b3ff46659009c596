//! The exported functions of the proved core, held against the second implementation: the same calls
//! on the same words, and everything that can be seen compared after each.

pub mod blocks;
pub mod calls;
pub mod chooser;
pub mod helpers;
pub mod list;
pub mod pair;
pub mod records;
pub mod removals;
pub mod supplied;
pub mod tables;
pub mod tally;

/// The wrapper's raw layer. Its tables are open, since a test compares them and makes states that no
/// host may.
pub use scopes::sys as exports;
