//! "one thread's stack is also offered as a record that is lent, pushed and popped where the host
//! holds it"

use crate::answer::{refuse_if, Answer, Outcome, Refusal};
use crate::state::{AREAS, STACK_ENTRIES};

/// "It begins empty and is never put back into a state."
#[derive(Clone, Debug, Default, PartialEq, Eq)]
pub struct StackRecord {
    entries: Vec<u64>,
}

impl StackRecord {
    pub fn new() -> StackRecord {
        StackRecord::default()
    }

    pub fn entries(&self) -> &[u64] {
        &self.entries
    }

    pub fn push(&mut self, area: u64) -> Answer {
        self.try_push(area).into()
    }

    pub fn pop(&mut self) -> Answer {
        self.entries.pop().ok_or(Refusal::Entries).into()
    }

    /// "an area above 63 gives 6, then a push on 32 entries 9"
    fn try_push(&mut self, area: u64) -> Outcome {
        refuse_if(area >= AREAS, Refusal::Area)?;
        refuse_if(self.entries.len() >= STACK_ENTRIES, Refusal::StackFull)?;
        self.entries.push(area);
        Ok(0)
    }
}
