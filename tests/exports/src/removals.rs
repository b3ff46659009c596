//! Makes and removes: where scopes lay before, which handles died with them, and what is worth noting.

use std::collections::BTreeMap;

use reference::blocks::{blocks_for, BLOCK_WORDS};
use reference::calls::{Call, Op};
use reference::layout::{Handle, NULL};
use reference::rights::Right;
use reference::state::State;

use crate::blocks::free_runs;
use crate::tally::Note;

#[derive(Default)]
pub struct Removals {
    /// The first block that each scope had when it was made last.
    places: BTreeMap<u64, usize>,
    /// The generation that each scope had when it was removed last.
    generations: BTreeMap<u64, u64>,
}

impl Removals {
    /// An accepted make, which has left a state.
    pub fn make(&mut self, state: &State, scope: u64, size: u64) -> Vec<Note> {
        let (used, blocks) = (&state.used_blocks, state.blocks_of(scope));
        let (first, last) = (blocks.start, blocks.end - 1);
        let before = self.places.insert(scope, first);
        let passed_over = used[..first].contains(&false);
        let in_front = used[last + 1..].contains(&true);
        let moved = before.is_some_and(|before| before != first);
        let rest = size % BLOCK_WORDS;
        vec![
            (rest == 0, "a scope of whole blocks"),
            (rest == 1, "a scope of a word more than whole blocks"),
            (passed_over, "a free run that is too short is passed over"),
            (in_front, "a scope in front of another"),
            (last + 1 == used.len(), "a scope that has the last block"),
            (last == 1_023, "a scope that has block 1,023"),
            (first / 64 != last / 64, "used bits in several words"),
            (moved, "a scope made again at another place"),
        ]
    }

    /// An accepted remove.
    pub fn remove(&mut self, state: &State, thread: u64, scope: u64) -> Vec<Note> {
        let generation = state.area(scope).generation;
        self.generations.insert(scope, generation);
        let kind = state.thread(thread).kind;
        let may_enter = |kind| state.rights.has_right(kind, scope, Right::Enter);
        let barred = !kind.is_some_and(may_enter);
        vec![(barred, "a thread that may not enter a scope removes it")]
    }

    /// A refused call of any op.
    pub fn refused(&self, state: &State, call: Call, status: u64) -> Vec<Note> {
        match call.op {
            Op::Make { size, .. } if status == 8 => no_room(state, size),
            Op::Remove { area } => self.refused_remove(state, call.thread, area, status),
            Op::Enter { area } => self.refused_enter(area, status),
            Op::Store { object, target, .. } => self.old_handles(state, object, target, status),
            Op::Load { object, .. } | Op::Write { object, .. } | Op::Read { object, .. } => {
                self.old_handles(state, object, NULL, status)
            }
            _ => Vec::new(),
        }
    }

    fn refused_remove(&self, state: &State, thread: u64, area: u64, status: u64) -> Vec<Note> {
        let open = status == 20;
        let outside = open && !state.thread(thread).stack.contains(&area);
        let again = status == 6 && self.was_removed(area);
        vec![
            (again, "a removed scope is removed again"),
            (outside, "an open scope is removed by a thread outside it"),
        ]
    }

    fn refused_enter(&self, area: u64, status: u64) -> Vec<Note> {
        let removed = self.was_removed(area);
        let last = "the last generation of a scope that was made again";
        vec![
            (status == 6 && removed, "a removed scope is entered"),
            (status == 17 && removed, last),
        ]
    }

    /// Handles from before their scope was removed, where it is open again.
    fn old_handles(&self, state: &State, object: u64, target: u64, status: u64) -> Vec<Note> {
        let object = status == 13 && self.is_old(state, object);
        let target = status == 15 && self.is_old(state, target);
        vec![
            (object, "an old handle of a scope that was made again"),
            (target, "an old target of a scope that was made again"),
        ]
    }

    fn was_removed(&self, scope: u64) -> bool {
        self.generations.contains_key(&scope)
    }

    fn is_old(&self, state: &State, word: u64) -> bool {
        let handle = Handle::unpack(word);
        let removed = self.generations.get(&handle.area);
        let before = removed.is_some_and(|&last| (1..=last).contains(&handle.generation));
        before && state.is_open(handle.area)
    }
}

/// A make that is refused by 8.
fn no_room(state: &State, size: u64) -> Vec<Note> {
    let (blocks, free) = (blocks_for(size), free_runs(state));
    let apart = size > 0 && blocks <= free.iter().sum();
    let at_the_end = state.used_blocks.iter().rev().take_while(|&&used| !used);
    let at_the_end = at_the_end.count() as u64;
    let words = at_the_end * BLOCK_WORDS + state.lengths.scratch % BLOCK_WORDS;
    let with_rest = blocks > at_the_end && size <= words;
    let wraps = size.checked_add(BLOCK_WORDS - 1).is_none();
    vec![
        (size == 0, "a scope of no words"),
        (apart, "enough free blocks, but not side by side"),
        (with_rest, "a size that would fit with the shorter rest"),
        (wraps, "a size that wraps where it is rounded up"),
    ]
}
