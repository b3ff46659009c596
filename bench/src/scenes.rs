//! What is measured: scenes that are set once, and loops of calls in them.

use std::hint::black_box;

use crate::machine::{Answer, InLine, Machine, BLOCK, SCRATCH};

/// The thread of all calls, and the helper that it starts; both are real-time, so that they may do everything.
const T: u64 = 0;
const HELPER: u64 = 1;
const REAL_TIME: u64 = 2;
const FIRST_SCOPE: u64 = 2;
/// Objects in each scope, used by turns, with their slots and data words.
const OBJECTS: usize = 8;
const SLOTS: u64 = 2;
const DATA_WORDS: u64 = 2;
/// Allocations between two emptyings of the scope.
pub const BATCH: u64 = 200;

/// The value of a call that must be accepted.
fn ok(answer: Answer) -> u64 {
    assert_eq!(answer.status, 0);
    answer.value
}

/// A new object, every data word of it written, so that each can be read.
fn object<M: Machine>(machine: &mut M) -> u64 {
    let object = ok(machine.allocate(T, SLOTS, DATA_WORDS));
    for index in 0..DATA_WORDS {
        ok(machine.write(T, object, index, index));
    }
    object
}

/// The thread in scopes 2, 3, .., one in the other, with objects in each.
pub struct Nest<M> {
    machine: M,
    depth: u64,
    objects: Vec<[u64; OBJECTS]>,
}

impl<M: Machine> Nest<M> {
    pub fn new(depth: u64) -> Nest<M> {
        let mut machine = M::set_up();
        ok(machine.start(T, REAL_TIME));
        let mut objects = Vec::new();
        for scope in FIRST_SCOPE..FIRST_SCOPE + depth {
            ok(machine.make(T, scope, 256));
            ok(machine.enter(T, scope));
            objects.push([(); OBJECTS].map(|()| object(&mut machine)));
        }
        // One scope more, for entries, and the next one to be its child.
        ok(machine.make(T, FIRST_SCOPE + depth, 256));
        Nest {
            machine,
            depth,
            objects,
        }
    }

    fn innermost(&self) -> [u64; OBJECTS] {
        self.objects[self.depth as usize - 1]
    }

    /// The objects of the scope that stands so many above the innermost one.
    fn ancestor(&self, distance: u64) -> [u64; OBJECTS] {
        self.objects[(self.depth - 1 - distance) as usize]
    }

    /// Stores from the innermost scope to an ancestor.
    pub fn store(&mut self, calls: u64, distance: u64) {
        let (holders, targets) = (self.innermost(), self.ancestor(distance));
        for i in 0..calls as usize {
            let (holder, target) = (holders[i % OBJECTS], targets[i / OBJECTS % OBJECTS]);
            let answer = self
                .machine
                .store(T, black_box(holder), 1, black_box(target));
            black_box(answer);
        }
        assert_eq!(self.machine.store(T, holders[0], 1, targets[0]).status, 0);
    }

    /// Loads what a store left.
    pub fn load(&mut self, calls: u64, distance: u64) {
        self.store(OBJECTS as u64, distance);
        let holders = self.innermost();
        for i in 0..calls as usize {
            black_box(self.machine.load(T, black_box(holders[i % OBJECTS]), 1));
        }
        assert_ne!(ok(self.machine.load(T, holders[0], 1)), 0);
    }

    pub fn write(&mut self, calls: u64) {
        let holders = self.innermost();
        for i in 0..calls as usize {
            let holder = holders[i % OBJECTS];
            let answer = self
                .machine
                .write(T, black_box(holder), 1, black_box(i as u64));
            black_box(answer);
        }
        ok(self.machine.write(T, holders[0], 1, 7));
    }

    pub fn read(&mut self, calls: u64) {
        let holders = self.innermost();
        for i in 0..calls as usize {
            black_box(self.machine.read(T, black_box(holders[i % OBJECTS]), 1));
        }
        ok(self.machine.read(T, holders[0], 1));
    }

    /// Where the data words of the objects lie that `read` reads.
    pub fn view(&mut self, calls: u64) {
        let holders = self.innermost();
        for i in 0..calls as usize {
            let view = self.machine.view(T, black_box(holders[i % OBJECTS]));
            // Word by word, as a host reads it: a copy by longer loads would wait for the stores of its words.
            for word in [view.status, view.store, view.from, view.len] {
                black_box(word);
            }
        }
        assert_eq!(self.machine.view(T, holders[0]).len, DATA_WORDS);
    }

    /// Opens the next scope and leaves it, which empties it.
    pub fn enter_and_exit(&mut self, calls: u64) {
        let scope = FIRST_SCOPE + self.depth;
        for _ in 0..calls {
            black_box(self.machine.enter(T, black_box(scope)));
            black_box(self.machine.exit(T));
        }
        ok(self.machine.enter(T, scope));
        ok(self.machine.exit(T));
    }

    pub fn start_helper(&mut self, turns: u64) {
        for _ in 0..turns {
            self.helper_turn(|answer| _ = black_box(answer));
        }
        self.helper_turn(|answer| _ = ok(answer));
    }

    /// Starts a helper, which leaves every scope and ends.
    #[inline(always)]
    fn helper_turn(&mut self, answered: impl Fn(Answer)) {
        let kind = black_box(REAL_TIME);
        answered(self.machine.start_helper(T, kind, HELPER));
        for _ in 0..self.depth {
            answered(self.machine.exit(HELPER));
        }
        answered(self.machine.end(HELPER));
    }
}

impl Nest<InLine> {
    /// A rule alone, from the innermost scope to an ancestor.
    pub fn check(&self, calls: u64, distance: u64, rule: in_line::Rule) {
        let holder = FIRST_SCOPE + self.depth - 1;
        let target = holder - distance;
        for _ in 0..calls {
            let (holder, target) = (black_box(holder), black_box(target));
            black_box(self.machine.check(rule, T, holder, target));
        }
        assert!(self.machine.check(rule, T, holder, target));
    }
}

/// The thread in one scope under a parent, which takes all that it allocates.
pub struct Room<M> {
    machine: M,
}

impl<M: Machine> Room<M> {
    const SCOPE: u64 = FIRST_SCOPE + 1;

    pub fn new() -> Room<M> {
        let mut machine = M::set_up();
        ok(machine.start(T, REAL_TIME));
        ok(machine.make(T, FIRST_SCOPE, 64));
        ok(machine.make(T, Self::SCOPE, SCRATCH as u64 - 64));
        ok(machine.enter(T, FIRST_SCOPE));
        Room { machine }
    }

    /// Allocations in batches; before each the scope is entered and after it left, so that it is
    /// empty again. The pair's time counts: it is a part in BATCH of a pair for each allocation.
    pub fn allocate(&mut self, calls: u64, data_words: u64) {
        for _ in 0..calls / BATCH {
            black_box(self.machine.enter(T, Self::SCOPE));
            for _ in 0..BATCH {
                black_box(self.machine.allocate(T, 0, black_box(data_words)));
            }
            ok(self.machine.allocate(T, 0, 0));
            black_box(self.machine.exit(T));
        }
    }
}

/// Which blocks of scratch belong to scopes before one more is made.
#[derive(Clone, Copy)]
pub enum Used {
    Nothing,
    First,
    /// Every second one, so many in all: 1, 3, ..
    EverySecond(u64),
}

/// The thread with closed scopes of one block, and one scope more, which it makes and removes.
pub struct Blocks<M> {
    machine: M,
    size: u64,
}

impl<M: Machine> Blocks<M> {
    const SCOPE: u64 = FIRST_SCOPE;

    /// The scope has so many blocks.
    pub fn new(used: Used, blocks: u64) -> Blocks<M> {
        let mut machine = M::set_up();
        ok(machine.start(T, REAL_TIME));
        match used {
            Used::Nothing => {}
            Used::First => use_block(&mut machine, Self::SCOPE + 1),
            Used::EverySecond(count) => use_every_second(&mut machine, count, Self::SCOPE),
        }
        let size = blocks * BLOCK;
        Blocks { machine, size }
    }

    pub fn make_and_remove(&mut self, turns: u64) {
        for _ in 0..turns {
            self.turn(|answer| _ = black_box(answer));
        }
        self.turn(|answer| _ = ok(answer));
    }

    #[inline(always)]
    fn turn(&mut self, answered: impl Fn(Answer)) {
        let (scope, size) = (black_box(Self::SCOPE), black_box(self.size));
        answered(self.machine.make(T, scope, size));
        answered(self.machine.remove(T, scope));
    }
}

/// Makes a scope of the lowest free block.
fn use_block<M: Machine>(machine: &mut M, scope: u64) {
    ok(machine.make(T, scope, BLOCK));
}

/// The last block is used first: a placeholder takes all those below it.
fn use_every_second<M: Machine>(machine: &mut M, count: u64, placeholder: u64) {
    for place in (0..count).rev() {
        let below = 2 * place + 1;
        ok(machine.make(T, placeholder, below * BLOCK));
        use_block(machine, placeholder + 1 + place);
        ok(machine.remove(T, placeholder));
    }
}

#[cfg(test)]
mod tests {
    use super::*;
    use crate::machine::Tuned;

    /// The block where the scope lies that a scene makes and removes.
    fn first_block(scene: Blocks<Tuned>) -> u64 {
        let Blocks { mut machine, size } = scene;
        let scope = Blocks::<Tuned>::SCOPE;
        ok(machine.make(T, scope, size));
        ok(machine.enter(T, scope));
        let object = ok(machine.allocate(T, 0, 0));
        let header = machine.view(T, object).from - 1;
        assert_eq!(header % BLOCK, 0);
        header / BLOCK
    }

    #[test]
    fn the_scope_lies_behind_what_is_used() {
        assert_eq!(first_block(Blocks::new(Used::Nothing, 255)), 0);
        assert_eq!(first_block(Blocks::new(Used::First, 512)), 1);
        for count in [7, 61] {
            let every_second = Used::EverySecond(count);
            assert_eq!(first_block(Blocks::new(every_second, 1)), 0);
            assert_eq!(first_block(Blocks::new(every_second, 2)), 2 * count);
        }
    }
}
