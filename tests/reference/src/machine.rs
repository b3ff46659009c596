//! A state together with the memory that is lent to its calls.

use crate::answer::Answer;
use crate::calls::Call;
use crate::memory::{Lengths, Memory};
use crate::state::{set_up, State};

#[derive(Clone, Debug, PartialEq, Eq)]
pub struct Machine {
    pub state: State,
    pub supplied: Memory,
}

impl Machine {
    /// A machine on zeroed buffers of the lengths that the sizes ask for.
    pub fn zeroed(heap: u64, immortal: u64, scratch: u64) -> Machine {
        let lengths = Lengths::with_maps(heap + immortal, scratch);
        Machine::over(heap, immortal, Memory::zeroed(lengths))
    }

    /// A machine on lent words of any contents.
    pub fn over(heap: u64, immortal: u64, supplied: Memory) -> Machine {
        let (answer, state) = set_up(heap, immortal, &supplied);
        assert!(answer.is_accepted(), "set-up refused by {}", answer.status);
        Machine { state, supplied }
    }

    /// "runs with h = i = 1,024, S = 4,096"
    pub fn for_frames() -> Machine {
        Machine::zeroed(1_024, 1_024, 4_096)
    }

    pub fn run(&mut self, call: Call) -> Answer {
        self.state.run(&mut self.supplied, call)
    }

    pub fn is_live(&self, word: u64) -> bool {
        self.state.is_live(&self.supplied, word)
    }

    /// The number of a live object's data word, or of the word at an index past them, if it is lent.
    pub fn data_word(&self, object: u64, index: u64) -> Option<u64> {
        let object = self.state.resolve(&self.supplied, object)?;
        let number = object.first_data().checked_add(index)?;
        let lengths = self.supplied.lengths();
        (number < lengths.permanent + lengths.scratch).then_some(number)
    }
}
