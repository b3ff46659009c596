//! The scoped-memory core of document 01, written a second time in the plainest way.
//!
//! Nothing here is packed or cached: the innermost scope is found by a scan of the stack, the
//! assignment rule by a walk of the parents and the room of a scope by trying each start. The proved
//! program is compared with this one.

pub mod answer;
pub mod arguments;
pub mod blocks;
pub mod calls;
pub mod claims;
pub mod frame;
pub mod generator;
pub mod history;
pub mod layout;
pub mod loads;
pub mod machine;
pub mod memory;
pub mod mood;
pub mod program;
pub mod random;
pub mod rights;
pub mod spoil;
pub mod stack_record;
pub mod state;
pub mod texts;
pub mod trial;
pub mod values;
