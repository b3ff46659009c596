//! A bench's buffers, and short names for the tests.
#![allow(dead_code)]

use scopes::{map_words, Area, Core, Handle, Kind, Thread};

pub const HEAP: u64 = 16;
pub const IMMORTAL: u64 = 16;
pub const PERMANENT: usize = 32;
pub const SCRATCH: usize = 96;

/// Buffers whose every bit is 1, since the lent words may hold anything.
pub struct Buffers {
    pub permanent: Vec<u64>,
    pub scratch: Vec<u64>,
    pub map: Vec<u64>,
    pub written: Vec<u64>,
}

impl Buffers {
    pub fn new() -> Buffers {
        Buffers {
            permanent: vec![u64::MAX; PERMANENT],
            scratch: vec![u64::MAX; SCRATCH],
            map: vec![u64::MAX; map_words(PERMANENT, SCRATCH)],
            written: vec![u64::MAX; map_words(PERMANENT, SCRATCH)],
        }
    }

    pub fn set_up(&mut self) -> Core<'_> {
        let Buffers {
            permanent,
            scratch,
            map,
            written,
        } = self;
        Core::set_up(permanent, scratch, map, written, HEAP, IMMORTAL).expect("lengths that fit")
    }

    /// Threads 0, 1 and 2 started, real-time, ordinary and no-heap; scopes 2 and 3 made, 8 words each,
    /// in the first two of six blocks.
    pub fn begin(&mut self) -> Core<'_> {
        let mut core = self.set_up();
        core.start(thread(0), Kind::RealTime).unwrap();
        core.start(thread(1), Kind::Ordinary).unwrap();
        core.start(thread(2), Kind::NoHeap).unwrap();
        core.make(thread(0), area(2), 8).unwrap();
        core.make(thread(0), area(3), 8).unwrap();
        core
    }
}

pub fn thread(number: u64) -> Thread {
    Thread::new(number)
}

pub fn area(number: u64) -> Area {
    Area::new(number)
}

pub fn handle(word: u64) -> Handle {
    Handle::from_word(word).expect("a word that is not null")
}

/// All lent words.
pub fn words(core: &Core) -> [Vec<u64>; 4] {
    [core.permanent(), core.scratch(), core.map(), core.written()].map(<[u64]>::to_vec)
}
