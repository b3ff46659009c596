//! The core as a Rust engineer who cares for speed would write it: records of 32 bytes, the place of an area's
//! first map bit kept in its record, a kind's rights as a mask, one branch for the four lengths, every inner function
//! in line. The checks and their order are those of the exported functions.
//!
//! It is compiled twice: as safe code, and with the feature `unchecked`, which drops the bounds checks
//! that the state's invariant makes needless. Each is a crate of its own, so that the compiler sees its functions
//! apart from their callers, as it does the archive's.

mod access;
mod areas;
mod blocks;
mod data;
mod objects;
mod references;
mod rights;
mod scopes;
mod state;
mod threads;

pub use areas::{enter, exit};
pub use data::{read, view, write};
pub use objects::allocate;
pub use references::{load, store};
pub use rights::load_rights;
pub use scopes::{make, remove};
pub use state::{Answer, State, View};
pub use threads::{end, start, start_helper};
