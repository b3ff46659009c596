//! Chooses calls that mean something to the state they meet, and some that mean nothing.

use reference::blocks::BLOCK_WORDS;
use reference::calls::Op;
use reference::layout::{Handle, NULL};
use reference::memory::Memory;
use reference::random::Random;
use reference::state::{is_scope, Object, State, AREAS, FIRST_SCOPE, LAST_GENERATION, THREADS};
use reference::texts;

use crate::blocks;
use crate::calls::Request;
use crate::pair::{op, Buffer};

/// How many handles are remembered.
const REMEMBERED: usize = 60;
/// Functions to choose from: ops 01 to 0c, the two calls of the shown part, then the load.
const FUNCTIONS: usize = 15;

/// The weight of entries where a stack is to be filled; helpers have a tenth of it then, others at most
/// 10.
const FILLING: u64 = 300;
/// The weight of makes and of removes where scratch is to fall into pieces.
const CHANGING: u64 = 60;

/// What the chooser sees: the second implementation's state and memory.
#[derive(Clone, Copy)]
pub struct Seen<'a> {
    pub state: &'a State,
    pub memory: &'a Memory,
}

impl Seen<'_> {
    pub fn resolve(self, word: u64) -> Option<Object> {
        self.state.resolve(self.memory, word)
    }

    pub fn is_live(self, word: u64) -> bool {
        self.resolve(word).is_some()
    }
}

/// A word that the host writes itself.
pub type Poke = (Buffer, u64, u64);

pub struct Chooser {
    pub random: Random,
    /// Handles that allocations gave.
    known: Vec<u64>,
    /// How likely each function is for the next calls, and how many these are.
    weights: [u64; FUNCTIONS],
    calls_left: u64,
    /// The thread that most of them are by.
    focus: u64,
    /// Whether every thread is led out, for a load.
    leading_out: bool,
}

impl Chooser {
    pub fn new(random: Random) -> Chooser {
        Chooser {
            random,
            known: Vec::new(),
            weights: [6, 1, 6, 4, 1, 2, 1, 1, 1, 1, 1, 1, 1, 1, 1],
            calls_left: 20,
            focus: 0,
            leading_out: false,
        }
    }

    pub fn remember(&mut self, handle: u64) {
        if self.known.len() >= REMEMBERED {
            let place = self.random.below(REMEMBERED as u64) as usize;
            self.known.swap_remove(place);
        }
        self.known.push(handle);
    }

    pub fn known(&self) -> &[u64] {
        &self.known
    }

    /// The next call.
    pub fn request(&mut self, seen: Seen) -> Request {
        let state = seen.state;
        self.change_weights();
        if let Some(request) = self.towards_a_load(state) {
            return request;
        }
        let thread = self.thread(state);
        match self.random.weighted(&self.weights) {
            0 => op(self.new_thread(state), self.start()),
            1 => op(thread, Op::End),
            2 => op(thread, self.make(state)),
            3 => op(thread, self.enter(state)),
            4 => op(thread, Op::Exit),
            5 => op(thread, self.allocate(state, thread)),
            6 => op(thread, self.store(seen)),
            7 => op(thread, self.load(seen)),
            8 => op(thread, self.write(seen)),
            9 => op(thread, self.read(seen)),
            10 => self.start_helper(state, thread),
            11 => op(thread, self.remove(state)),
            12 => Request::ViewStatus {
                thread,
                object: self.object(seen),
            },
            13 => Request::ViewPlace {
                thread,
                object: self.object(seen),
            },
            _ => self.load_rights(),
        }
    }

    /// Often a load where no thread is started, now and then where one alone is; the next exit or end
    /// where they are led out.
    fn towards_a_load(&mut self, state: &State) -> Option<Request> {
        let started = started(state);
        let chance = [30, 5].get(started.len()).copied().unwrap_or(0);
        if self.random.percent(chance) {
            return Some(self.load_rights());
        }
        self.leading_out &= !started.is_empty();
        let thread = started.first().filter(|_| self.leading_out).copied()?;
        let empty = state.thread(thread).stack.is_empty();
        Some(op(thread, if empty { Op::End } else { Op::Exit }))
    }

    fn load_rights(&mut self) -> Request {
        let text = texts::any(&mut self.random);
        Request::LoadRights { text }
    }

    /// Every few calls another mixture; now and then almost nothing but entries, to fill a stack, and
    /// helpers, to copy it; or makes and removes; or what uses scopes and makes them again.
    fn change_weights(&mut self) {
        if self.calls_left > 0 {
            self.calls_left -= 1;
            return;
        }
        self.calls_left = self.random.between(5, 50);
        self.focus = self.random.below(THREADS);
        for weight in &mut self.weights {
            *weight = self.random.between(1, 10);
        }
        // Threads end seldom, so that some are there, but now and then all do. Removes and loads are
        // seldom too.
        self.weights[1] = 1;
        self.weights[11] = self.random.between(1, 2);
        self.weights[14] = 1;
        self.leading_out = self.random.percent(6);
        match self.random.below(100) {
            0..=14 => self.fill_stacks(),
            15..=24 => self.change_scopes(),
            25..=39 => self.renew_scopes(),
            _ => {}
        }
    }

    fn fill_stacks(&mut self) {
        self.weights[3] = FILLING;
        self.weights[10] = FILLING / 10;
        self.calls_left = 80;
    }

    fn change_scopes(&mut self) {
        self.weights[2] = CHANGING;
        self.weights[11] = CHANGING;
        self.calls_left = self.random.between(20, 60);
    }

    fn renew_scopes(&mut self) {
        self.weights = [5, 1, 12, 30, 12, 30, 20, 6, 6, 12, 3, 8, 2, 2, 1];
        self.calls_left = self.random.between(50, 100);
    }

    /// One of a few bad numbers, or any.
    fn any_word(&mut self) -> u64 {
        match self.random.below(4) {
            0 => u64::MAX,
            1 => 1 << self.random.below(64),
            2 => self.random.below(70),
            _ => self.random.word(),
        }
    }

    fn thread(&mut self, state: &State) -> u64 {
        if self.random.percent(3) {
            return self.any_word();
        }
        let started = started(state);
        if self.random.percent(60) && started.contains(&self.focus) {
            return self.focus;
        }
        let any = self.random.below(THREADS);
        self.random.one_of(&started).unwrap_or(any)
    }

    /// Mostly a thread that is not started.
    fn new_thread(&mut self, state: &State) -> u64 {
        let idle: Vec<u64> = (0..THREADS)
            .filter(|&thread| state.thread(thread).kind.is_none())
            .collect();
        if self.random.percent(70) {
            if let Some(thread) = self.random.one_of(&idle) {
                return thread;
            }
        }
        self.thread(state)
    }

    fn start(&mut self) -> Op {
        let kind = self.kind(&[1, 1, 2, 2, 2, 2, 2, 2, 3]);
        Op::Start { kind }
    }

    /// One of these kinds, or now and then any number.
    fn kind(&mut self, kinds: &[u64]) -> u64 {
        if self.random.percent(10) {
            return self.any_word();
        }
        self.random.one_of(kinds).unwrap_or(2)
    }

    /// Half of the time by the thread with the most entries. A helper that is its own starter comes
    /// too.
    fn start_helper(&mut self, state: &State, thread: u64) -> Request {
        let entries = |&thread: &u64| state.thread(thread).stack.len();
        let deepest = started(state).into_iter().max_by_key(entries);
        let starter = match deepest {
            Some(deepest) if self.random.percent(50) => deepest,
            _ => thread,
        };
        let helper = match self.random.below(20) {
            0 => self.any_word(),
            1 => starter,
            _ => self.new_thread(state),
        };
        let kind = self.kind(&[1, 2, 2, 3]);
        op(starter, Op::StartHelper { kind, helper })
    }

    fn make(&mut self, state: &State) -> Op {
        let size = self.size(state);
        let removed: Vec<u64> = (FIRST_SCOPE..AREAS)
            .filter(|&scope| !state.area(scope).made && state.area(scope).generation > 0)
            .collect();
        let any = self.random.between(FIRST_SCOPE, 12);
        let area = match self.random.below(10) {
            0 => self.any_word(),
            1 => self.random.below(66),
            2..=5 => self.random.one_of(&removed).unwrap_or(any),
            _ => any,
        };
        Op::Make { area, size }
    }

    /// Whole blocks or a word more: a few, a part of the longest free run or all of it, or as many as
    /// are free in all. Else a few words, or any number, also one that wraps where it is rounded up.
    fn size(&mut self, state: &State) -> u64 {
        let runs = blocks::free_runs(state);
        let longest = runs.iter().max().copied().unwrap_or(0);
        let blocks = match self.random.below(20) {
            0 => return self.any_word(),
            1 => return u64::MAX - self.random.below(16),
            2 => self.random.below(longest + 1),
            3 => longest,
            4 => runs.iter().sum(),
            5..=8 => self.random.below(4),
            _ => return self.random.between(1, 30),
        };
        blocks * BLOCK_WORDS + self.random.below(2)
    }

    /// Mostly a scope that is made and not open.
    fn remove(&mut self, state: &State) -> Op {
        let made = (FIRST_SCOPE..AREAS).filter(|&scope| state.area(scope).made);
        let open_too = self.random.percent(20);
        let scopes: Vec<u64> = made
            .filter(|&scope| open_too || !state.is_open(scope))
            .collect();
        let any = self.random.below(AREAS);
        let area = match self.random.below(12) {
            0 => self.any_word(),
            1 => any,
            _ => self.random.one_of(&scopes).unwrap_or(any),
        };
        Op::Remove { area }
    }

    fn enter(&mut self, state: &State) -> Op {
        // Half of the time among scopes alone, but for a stack that is to be filled.
        let filling = self.weights[3] == FILLING;
        let first = if filling {
            0
        } else {
            self.random.below(2) * FIRST_SCOPE
        };
        let made: Vec<u64> = (first..AREAS)
            .filter(|&area| state.area(area).made)
            .collect();
        let any = self.random.below(AREAS);
        let area = match self.random.below(20) {
            0 => self.any_word(),
            1 => any,
            _ => self.random.one_of(&made).unwrap_or(any),
        };
        Op::Enter { area }
    }

    fn allocate(&mut self, state: &State, thread: u64) -> Op {
        let slots = self.random.below(4);
        let data = self.random.below(5);
        match self.random.below(16) {
            0 => Op::Allocate {
                slots: self.any_word(),
                data,
            },
            1 => Op::Allocate {
                slots,
                data: self.any_word(),
            },
            2 if thread < THREADS => {
                // The last word of the area, or one more.
                let area = state.area(state.current_area(thread));
                let data = (area.size - area.used).saturating_sub(self.random.below(2));
                Op::Allocate { slots: 0, data }
            }
            _ => Op::Allocate { slots, data },
        }
    }

    /// A handle that was given, mostly one that is live; one bit beside it; one that the state's areas
    /// would have; or any word.
    fn object(&mut self, seen: Seen) -> u64 {
        let known = self.random.one_of(&self.known).unwrap_or(NULL);
        match self.random.below(20) {
            0 => NULL,
            1 => self.any_word(),
            2 => known ^ (1 << self.random.below(64)),
            3 => known,
            4 => self.old(seen.state).unwrap_or(known),
            5..=7 => self.made_up(seen.state),
            _ => self.live(seen).unwrap_or(known),
        }
    }

    /// A handle that was given before its scope was opened again.
    fn old(&mut self, state: &State) -> Option<u64> {
        let is_old = |&word: &u64| {
            let handle = Handle::unpack(word);
            state.is_open(handle.area) && handle.generation < state.area(handle.area).generation
        };
        let old: Vec<u64> = self.known.iter().copied().filter(is_old).collect();
        self.random.one_of(&old)
    }

    fn live(&mut self, seen: Seen) -> Option<u64> {
        let known = self.known.iter().copied();
        let live: Vec<u64> = known.filter(|&word| seen.is_live(word)).collect();
        self.random.one_of(&live)
    }

    /// A place in the used words of some area, with the area's generation: an object if the lent words
    /// say so.
    fn made_up(&mut self, state: &State) -> u64 {
        let used: Vec<u64> = (0..AREAS).filter(|&a| state.area(a).used > 0).collect();
        let Some(area) = self.random.one_of(&used) else {
            return self.any_word();
        };
        let offset = self.random.below(state.area(area).used + 2);
        let generation = state.area(area).generation;
        Handle {
            offset,
            area,
            generation,
        }
        .pack()
    }

    fn index(&mut self) -> u64 {
        if self.random.percent(4) {
            return self.any_word();
        }
        self.random.below(4)
    }

    fn store(&mut self, seen: Seen) -> Op {
        Op::Store {
            object: self.object(seen),
            slot: self.index(),
            target: self.target(seen),
        }
    }

    /// As an object, but more often an old handle.
    fn target(&mut self, seen: Seen) -> u64 {
        let object = self.object(seen);
        if self.random.percent(20) {
            return self.old(seen.state).unwrap_or(object);
        }
        object
    }

    fn load(&mut self, seen: Seen) -> Op {
        Op::Load {
            object: self.object(seen),
            slot: self.index(),
        }
    }

    fn write(&mut self, seen: Seen) -> Op {
        let (object, index) = (self.object(seen), self.index());
        let zero = self.random.percent(15);
        let word = if zero { 0 } else { self.any_word() };
        Op::Write {
            object,
            index,
            word,
        }
    }

    fn read(&mut self, seen: Seen) -> Op {
        Op::Read {
            object: self.object(seen),
            index: self.index(),
        }
    }

    /// What the host writes into the buffers: an object among the used words, a data word's written
    /// bit, or any word somewhere.
    pub fn pokes(&mut self, seen: Seen) -> Vec<Poke> {
        match self.random.below(10) {
            0..=4 => self.forged(seen),
            5 => Vec::from_iter(self.spoilt_bit(seen)),
            _ => Vec::from_iter(self.poke(seen)),
        }
    }

    /// A header or a handle or any word, mostly near the start of a buffer.
    fn poke(&mut self, seen: Seen) -> Option<Poke> {
        let lengths = seen.memory.lengths();
        let (buffer, length) = match self.random.below(4) {
            0 => (Buffer::Permanent, lengths.permanent),
            1 => (Buffer::Scratch, lengths.scratch),
            2 => (Buffer::Map, lengths.start_map),
            _ => (Buffer::Written, lengths.written),
        };
        if length == 0 {
            return None;
        }
        let near = if self.random.percent(70) { 40 } else { length };
        let place = self.random.below(near.min(length));
        let word = match self.random.below(4) {
            0 => self.random.word(),
            1 => self.header(),
            2 => self.object(seen),
            _ => self.random.word() | self.random.word(),
        };
        Some((buffer, place, word))
    }

    /// A header of a small object, with any bits above.
    fn header(&mut self) -> u64 {
        let (slots, data) = (self.random.below(4), self.random.below(4));
        slots | data << 14 | self.random.word() << 28
    }

    /// A header and its start bit at a used word, which no allocation put there.
    fn forged(&mut self, seen: Seen) -> Vec<Poke> {
        let handle = Handle::unpack(self.made_up(seen.state));
        let area = seen.state.area(handle.area);
        if handle.offset >= area.used {
            return Vec::new();
        }
        let number = area.first + handle.offset;
        let permanent = seen.state.lengths.permanent;
        let header = match number.checked_sub(permanent) {
            None => (Buffer::Permanent, number, self.header()),
            Some(in_scratch) => (Buffer::Scratch, in_scratch, self.header()),
        };
        let bits = seen.memory.start_map[(number / 64) as usize] | 1 << (number % 64);
        vec![header, (Buffer::Map, number / 64, bits)]
    }

    /// The other bit for a data word of a live object in the written map.
    fn spoilt_bit(&mut self, seen: Seen) -> Option<Poke> {
        let object = seen.resolve(self.live(seen)?)?;
        let data = object.header.data.checked_sub(1)?;
        let number = object.first_data() + self.random.below(data + 1);
        let bits = seen.memory.written[(number / 64) as usize] ^ 1 << (number % 64);
        Some((Buffer::Written, number / 64, bits))
    }

    /// A scope that is not open, made or removed, and a generation that is the last one or near it.
    pub fn generation(&mut self, state: &State) -> Option<(u64, u64)> {
        let closed: Vec<u64> = (FIRST_SCOPE..AREAS)
            .filter(|&scope| !state.is_open(scope))
            .filter(|&scope| state.area(scope).made || state.area(scope).generation > 0)
            .collect();
        let scope = self.random.one_of(&closed).filter(|&s| is_scope(s))?;
        Some((scope, LAST_GENERATION - self.random.below(3)))
    }

    /// The buffers with one of another length: a word less or more, none, or many.
    pub fn other_lengths(&mut self, memory: &Memory) -> Memory {
        let mut other = memory.clone();
        let buffer = match self.random.below(4) {
            0 => &mut other.permanent,
            1 => &mut other.scratch,
            2 => &mut other.start_map,
            _ => &mut other.written,
        };
        let length = buffer.len();
        match self.random.below(4) {
            0 if length > 0 => buffer.truncate(length - 1),
            1 if length > 0 => buffer.clear(),
            2 => buffer.extend([0; 64]),
            _ => buffer.push(self.random.word()),
        }
        other
    }
}

/// The threads that are started.
pub fn started(state: &State) -> Vec<u64> {
    let started = |&thread: &u64| state.thread(thread).kind.is_some();
    (0..THREADS).filter(started).collect()
}
