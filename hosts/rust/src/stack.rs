//! One thread's scope stack as a record that the host's scheduler holds.

use core::fmt;

use crate::names::Area;
use crate::record;
use crate::refusal::{value, Refusal};
use crate::sys;

/// A stack of at most 32 areas, apart from every state. It begins empty; push and pop change it.
pub struct ScopeStack(sys::ScopeStack);

impl ScopeStack {
    /// An empty stack.
    pub fn empty() -> ScopeStack {
        ScopeStack(record::stack_empty())
    }

    /// Puts an area on top. Refusals 6, 9.
    pub fn push(&mut self, area: Area) -> Result<(), Refusal> {
        value(record::stack_push(&mut self.0, area.number())).map(|_| ())
    }

    /// Takes the top off. Refusal 11.
    pub fn pop(&mut self) -> Result<Area, Refusal> {
        value(record::stack_pop(&mut self.0)).map(Area::new)
    }

    /// The areas on it, the top last.
    pub fn entries(&self) -> impl DoubleEndedIterator<Item = Area> + '_ {
        let areas = &self.0.entries[..self.0.len as usize];
        areas.iter().map(|&area| Area::new(area.into()))
    }
}

impl Default for ScopeStack {
    fn default() -> ScopeStack {
        ScopeStack::empty()
    }
}

/// The areas on it, and nothing of the record above them.
impl fmt::Debug for ScopeStack {
    fn fmt(&self, out: &mut fmt::Formatter<'_>) -> fmt::Result {
        out.debug_list().entries(self.entries()).finish()
    }
}
