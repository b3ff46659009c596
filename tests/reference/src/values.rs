//! What the calls and answers so far say of an answer to come: what a load, an entry or an exit must
//! yield if it is accepted, and the status of a removal.

use std::collections::BTreeMap;

use crate::answer::Answer;
use crate::calls::{Call, Op};
use crate::history::History;
use crate::layout::NULL;
use crate::state::{is_scope, HEAP};

#[derive(Clone, Debug, Default)]
pub struct Values {
    /// The word last stored in a slot of a handle.
    stored: BTreeMap<(u64, u64), u64>,
    /// What the last opening of a scope gave.
    openings: BTreeMap<u64, u64>,
}

impl Values {
    /// The value of a call, if it is accepted and one of these three. The history is that before it.
    pub fn expected(&self, history: &History, call: Call) -> Option<u64> {
        match call.op {
            Op::Enter { area } => Some(self.generation(history, area)),
            Op::Exit => Some(left(history, call.thread)),
            Op::Load { object, slot } => {
                Some(self.stored.get(&(object, slot)).copied().unwrap_or(NULL))
            }
            _ => None,
        }
    }

    /// An entry that opens a scope gives one more than its last opening, removals between them or not;
    /// any other of it the same.
    fn generation(&self, history: &History, area: u64) -> u64 {
        if !is_scope(area) {
            return 1;
        }
        let last = self.openings.get(&area).copied().unwrap_or(0);
        last + u64::from(!history.is_open(area))
    }

    /// Notes an accepted call. The history is that before it.
    pub fn step(&mut self, history: &History, call: Call, answer: Answer) {
        if !answer.is_accepted() {
            return;
        }
        match call.op {
            Op::Enter { area } if is_scope(area) && !history.is_open(area) => {
                self.openings.insert(area, answer.value);
            }
            Op::Allocate { .. } => self.stored.retain(|&(object, _), _| object != answer.value),
            Op::Store {
                object,
                slot,
                target,
            } => {
                self.stored.insert((object, slot), target);
            }
            _ => {}
        }
    }
}

/// The status of a removal that 1 does not refuse: "2, 6 (outside 2 to 63, or not made)", then "20
/// when the scope is open".
pub fn removal_status(history: &History, thread: u64, area: u64) -> u64 {
    match history.rows.get(thread as usize) {
        None | Some(None) => 2,
        Some(Some(_)) if !history.is_made_scope(area) => 6,
        Some(Some(_)) if history.is_open(area) => 20,
        Some(Some(_)) => 0,
    }
}

/// The entries of the scope that a thread leaves, on all rows, without the one taken off.
fn left(history: &History, thread: u64) -> u64 {
    let row = history.rows.get(thread as usize).and_then(Option::as_ref);
    let top = row.and_then(|row| row.last()).copied().unwrap_or(HEAP);
    if !is_scope(top) {
        return 0;
    }
    history.entries(top) - 1
}
