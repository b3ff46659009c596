//! Short forms of the calls for the tests.
#![allow(dead_code)]

use reference::answer::Answer;
use reference::calls::{Call, Op};
use reference::machine::Machine;
use reference::memory::{Lengths, Memory};

pub const ORDINARY: u64 = 1;
pub const REAL_TIME: u64 = 2;
pub const NO_HEAP: u64 = 3;

/// A machine and the calls by their short names; each yields its status and its value.
pub struct Bench {
    pub machine: Machine,
}

pub type Pair = (u64, u64);

fn pair(answer: Answer) -> Pair {
    (answer.status, answer.value)
}

/// Lent buffers, every word of them the same.
pub fn filled(lengths: Lengths, word: u64) -> Memory {
    let mut supplied = Memory::zeroed(lengths);
    for buffer in buffers(&mut supplied) {
        buffer.fill(word);
    }
    supplied
}

/// The four buffers.
pub fn buffers(supplied: &mut Memory) -> [&mut Vec<u64>; 4] {
    let Memory {
        permanent,
        scratch,
        start_map,
        written,
    } = supplied;
    [permanent, scratch, start_map, written]
}

impl Bench {
    /// The frame reader's sizes, nothing started.
    pub fn new() -> Bench {
        let machine = Machine::for_frames();
        Bench { machine }
    }

    /// Heap 10, immortal 20, scratch 70, every lent bit 1; a real-time thread is started.
    pub fn all_ones() -> Bench {
        let supplied = filled(Lengths::with_maps(30, 70), u64::MAX);
        let machine = Machine::over(10, 20, supplied);
        let mut bench = Bench { machine };
        assert_eq!(bench.start(0, REAL_TIME), (0, 0));
        bench
    }

    /// Threads 0, 1, ... started with these kinds.
    pub fn with_threads(kinds: &[u64]) -> Bench {
        let mut bench = Bench::new();
        for (thread, &kind) in kinds.iter().enumerate() {
            assert_eq!(bench.start(thread as u64, kind), (0, 0));
        }
        bench
    }

    /// The scopes made with their sizes, by thread 0.
    pub fn and_scopes(mut self, scopes: &[(u64, u64)]) -> Bench {
        for &(area, size) in scopes {
            assert_eq!(self.make(0, area, size), (0, 0));
        }
        self
    }

    pub fn run(&mut self, thread: u64, op: Op) -> Pair {
        pair(self.machine.run(Call { thread, op }))
    }

    pub fn start(&mut self, thread: u64, kind: u64) -> Pair {
        self.run(thread, Op::Start { kind })
    }

    pub fn end(&mut self, thread: u64) -> Pair {
        self.run(thread, Op::End)
    }

    pub fn make(&mut self, thread: u64, area: u64, size: u64) -> Pair {
        self.run(thread, Op::Make { area, size })
    }

    pub fn enter(&mut self, thread: u64, area: u64) -> Pair {
        self.run(thread, Op::Enter { area })
    }

    pub fn exit(&mut self, thread: u64) -> Pair {
        self.run(thread, Op::Exit)
    }

    pub fn allocate(&mut self, thread: u64, slots: u64, data: u64) -> Pair {
        self.run(thread, Op::Allocate { slots, data })
    }

    /// The handle of an allocation that must be accepted.
    pub fn object(&mut self, thread: u64, slots: u64, data: u64) -> u64 {
        let (status, handle) = self.allocate(thread, slots, data);
        assert_eq!(status, 0, "allocation of {slots} slots and {data} words");
        handle
    }

    pub fn store(&mut self, thread: u64, object: u64, slot: u64, target: u64) -> Pair {
        let op = Op::Store {
            object,
            slot,
            target,
        };
        self.run(thread, op)
    }

    pub fn load(&mut self, thread: u64, object: u64, slot: u64) -> Pair {
        self.run(thread, Op::Load { object, slot })
    }

    pub fn write(&mut self, thread: u64, object: u64, index: u64, word: u64) -> Pair {
        let op = Op::Write {
            object,
            index,
            word,
        };
        self.run(thread, op)
    }

    pub fn read(&mut self, thread: u64, object: u64, index: u64) -> Pair {
        self.run(thread, Op::Read { object, index })
    }

    pub fn start_helper(&mut self, starter: u64, kind: u64, helper: u64) -> Pair {
        self.run(starter, Op::StartHelper { kind, helper })
    }

    pub fn remove(&mut self, thread: u64, area: u64) -> Pair {
        self.run(thread, Op::Remove { area })
    }

    pub fn load_rights(&mut self, text: impl AsRef<[u8]>) -> Pair {
        pair(self.machine.state.load_rights(text.as_ref()))
    }

    pub fn view(&self, thread: u64, object: u64) -> &[u64] {
        let machine = &self.machine;
        machine.state.view_of(&machine.supplied, thread, object)
    }

    pub fn view_answer(&self, thread: u64, object: u64) -> Pair {
        let machine = &self.machine;
        let state = &machine.state;
        pair(state.view_status_of(&machine.supplied, thread, object))
    }
}
