//! The state, its set-up, and what can be read off it.

use std::ops::Range;

use crate::answer::{Answer, Refusal};
use crate::blocks::{blocks_for, lowest_run, BLOCK_WORDS};
use crate::layout::{Handle, Header};
use crate::memory::{Lengths, Memory};
use crate::rights::{Kind, RightsTable};

/// "Area 0 is the heap, 1 immortal, 2 to 63 scopes."
pub const HEAP: u64 = 0;
pub const IMMORTAL: u64 = 1;
pub const FIRST_SCOPE: u64 = 2;
pub const AREAS: u64 = 64;
/// "Threads are 0 to 15."
pub const THREADS: u64 = 16;
/// "A stack has at most 32 entries."
pub const STACK_ENTRIES: usize = 32;
/// "P and S are each at most 16,384"
pub const MOST_WORDS: u64 = 16_384;
/// "last 17,592,186,044,415, which is 2^44 - 1"
pub const LAST_GENERATION: u64 = 17_592_186_044_415;

/// An area. `first` is the number of its first word, permanent words counted first. `size` is as
/// asked; both are 0 for a scope that is not made.
#[derive(Clone, Debug, Default, PartialEq, Eq)]
pub struct Area {
    pub made: bool,
    pub first: u64,
    pub size: u64,
    pub used: u64,
    /// Entries of a scope; "A scope is open while its count of entries is above 0."
    pub count: u64,
    pub generation: u64,
    /// The parent scope of an open scope; `None` is the primordial scope.
    pub parent: Option<u64>,
}

/// A thread, started while it has a kind. The stack's top is its last entry.
#[derive(Clone, Debug, Default, PartialEq, Eq)]
pub struct Thread {
    pub kind: Option<Kind>,
    pub stack: Vec<u64>,
}

#[derive(Clone, Debug, PartialEq, Eq)]
pub struct State {
    pub lengths: Lengths,
    /// Whether each block of scratch is a made scope's; "a shorter rest of S is not used".
    pub used_blocks: Vec<bool>,
    pub threads: Vec<Thread>,
    pub areas: Vec<Area>,
    /// The table in force.
    pub rights: RightsTable,
}

/// A live object: where it lies and what its header says.
#[derive(Clone, Copy, Debug, PartialEq, Eq)]
pub struct Object {
    pub area: u64,
    pub first: u64,
    pub header: Header,
}

impl Object {
    pub fn first_slot(&self) -> u64 {
        self.first + 1
    }

    pub fn first_data(&self) -> u64 {
        self.first + 1 + self.header.slots
    }
}

pub fn is_scope(area: u64) -> bool {
    area >= FIRST_SCOPE
}

/// "Set-up names heap size h and immortal size i." It "writes no word".
pub fn set_up(heap: u64, immortal: u64, supplied: &Memory) -> (Answer, State) {
    let lengths = supplied.lengths();
    if fits(heap, immortal, lengths) {
        let state = State::new(heap, immortal, lengths);
        return (Answer::accepted(0), state);
    }
    // "A refused set-up gives the state of an accepted one with all lengths 0."
    let state = State::new(0, 0, Lengths::default());
    (Answer::refused(Refusal::Lengths), state)
}

/// "unless h + i = P, P and S are each at most 16,384, and the map has exactly ..."; the written map
/// is "covered by refusal 1".
fn fits(heap: u64, immortal: u64, lengths: Lengths) -> bool {
    u128::from(heap) + u128::from(immortal) == u128::from(lengths.permanent)
        && lengths.permanent <= MOST_WORDS
        && lengths.scratch <= MOST_WORDS
        && lengths == Lengths::with_maps(lengths.permanent, lengths.scratch)
}

impl State {
    fn new(heap: u64, immortal: u64, lengths: Lengths) -> State {
        let mut areas = vec![Area::default(); AREAS as usize];
        areas[HEAP as usize] = State::permanent_area(0, heap);
        areas[IMMORTAL as usize] = State::permanent_area(heap, immortal);
        State {
            lengths,
            used_blocks: vec![false; (lengths.scratch / BLOCK_WORDS) as usize],
            threads: vec![Thread::default(); THREADS as usize],
            areas,
            rights: RightsTable::built_in(),
        }
    }

    /// "both always have turn 1"
    fn permanent_area(first: u64, size: u64) -> Area {
        Area {
            made: true,
            first,
            size,
            generation: 1,
            ..Area::default()
        }
    }

    pub fn area(&self, area: u64) -> &Area {
        &self.areas[area as usize]
    }

    pub fn thread(&self, thread: u64) -> &Thread {
        &self.threads[thread as usize]
    }

    pub fn is_open(&self, scope: u64) -> bool {
        is_scope(scope) && self.area(scope).count > 0
    }

    /// The first block of "the lowest run of adjacent clear bits that holds it"; none for size 0.
    pub fn room_for(&self, size: u64) -> Option<u64> {
        if size == 0 {
            return None;
        }
        lowest_run(&self.used_blocks, blocks_for(size))
    }

    /// The blocks of a made scope.
    pub fn blocks_of(&self, scope: u64) -> Range<usize> {
        let area = self.area(scope);
        let first = (area.first - self.lengths.permanent) / BLOCK_WORDS;
        first as usize..(first + blocks_for(area.size)) as usize
    }

    /// "The current area is the top entry, or the heap where the stack is empty."
    pub fn current_area(&self, thread: u64) -> u64 {
        self.thread(thread).stack.last().copied().unwrap_or(HEAP)
    }

    /// "the innermost scope on the thread's stack (heap and immortal entries are passed over)"
    pub fn innermost_scope(&self, thread: u64) -> Option<u64> {
        let stack = &self.thread(thread).stack;
        stack.iter().rev().copied().find(|&area| is_scope(area))
    }

    /// "it meets the scope itself and then its ancestors, the outermost last"
    pub fn walk(&self, scope: u64) -> impl Iterator<Item = u64> + '_ {
        let start = Some(scope).filter(|&scope| is_scope(scope));
        std::iter::successors(start, |&scope| self.area(scope).parent)
    }

    /// "A target in a scope may be stored only in an object of that scope or of one that has it
    /// among its ancestors."
    pub fn may_hold(&self, holder: u64, target: u64) -> bool {
        !is_scope(target) || self.walk(holder).any(|met| met == target)
    }

    /// "A handle is live if ...", its five conditions in their order.
    pub fn resolve(&self, supplied: &Memory, word: u64) -> Option<Object> {
        let handle = Handle::unpack(word);
        let area = self.area(handle.area);
        if is_scope(handle.area) && !self.is_open(handle.area) {
            return None;
        }
        if handle.generation != area.generation || handle.offset >= area.used {
            return None;
        }
        let first = area.first + handle.offset;
        if !supplied.starts_at(first) {
            return None;
        }
        let header = Header::unpack(supplied.word(first));
        let ends_within = handle.offset + header.words() <= area.used;
        ends_within.then_some(Object {
            area: handle.area,
            first,
            header,
        })
    }

    pub fn is_live(&self, supplied: &Memory, word: u64) -> bool {
        self.resolve(supplied, word).is_some()
    }
}
