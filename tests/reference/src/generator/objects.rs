//! Calls that make objects and use them, with handles of every sort.

use super::{made_up, Generator, Known, REMEMBERED, TRIES};
use crate::calls::{Call, Op};
use crate::layout::{Handle, Header, NULL};
use crate::machine::Machine;
use crate::mood::Mood;
use crate::rights::Kind;
use crate::state::{is_scope, AREAS, THREADS};

/// How often, in a hundred, words where an earlier object was written are used again and read.
const STALE: u64 = 60;
/// How often, in a hundred, an object in a scope has its bits in two map words where it may.
const LONG: u64 = 30;
/// How many words such an object and one over words of an earlier one have at most.
const NEAR: u64 = 40;

impl Generator {
    pub(super) fn allocate(&mut self) -> Call {
        let thread = self.thread_that(|state, thread| {
            let area = state.area(state.current_area(thread));
            area.used < area.size
        });
        let (slots, data) = self.shape(thread);
        let op = Op::Allocate { slots, data };
        Call { thread, op }
    }

    fn shape(&mut self, thread: u64) -> (u64, u64) {
        if self.wild() {
            return self.wild_shape(thread);
        }
        if self.random.percent(STALE) {
            if let Some(shape) = self.stale_shape(thread) {
                return shape;
            }
        }
        let scope = thread < THREADS && is_scope(self.machine.state.current_area(thread));
        if scope && self.random.percent(LONG) {
            if let Some(shape) = self.long_shape(thread) {
                return shape;
            }
        }
        let tight = match (scope, self.mood) {
            (true, Mood::Fill) => 25,
            (true, _) => 8,
            (false, _) => 3,
        };
        if self.random.percent(tight) {
            return self.tight_shape(thread);
        }
        if self.random.percent(4) {
            return (self.random.below(30), self.random.below(120));
        }
        (self.random.below(5), self.random.below(5))
    }

    /// The words that are left in the thread's current area.
    fn room(&self, thread: u64) -> u64 {
        let state = &self.machine.state;
        if thread >= THREADS {
            return 0;
        }
        let area = state.area(state.current_area(thread));
        area.size - area.used
    }

    /// An object that fills its area exactly, or is one word larger or smaller.
    fn tight_shape(&mut self, thread: u64) -> (u64, u64) {
        let room = self.room(thread);
        let words = match self.random.below(4) {
            0 => room + 1,
            1 => room.saturating_sub(1),
            _ => room,
        };
        let rest = words.saturating_sub(1);
        let slots = self.random.below(rest.min(40) + 1);
        (slots, rest - slots)
    }

    /// An object whose last data word lies where an earlier object's was written, if there is one
    /// near; often one whose map bits lie beyond the header's map word.
    fn stale_shape(&mut self, thread: u64) -> Option<(u64, u64)> {
        let near = self.room(thread).min(NEAR);
        if near == 0 {
            return None;
        }
        let header = self.next_word(thread);
        let next_map_word = (header / 64 + 1) * 64;
        let first = match self.random.percent(50) {
            true => next_map_word.min(header + near),
            false => header + 1,
        };
        let last = self.ever_written.range(first..header + near).next()?;
        let rest = last - header;
        let slots = self.random.below(rest.min(4));
        Some((slots, rest - slots))
    }

    /// The number of the word that the next object in the thread's current area starts at.
    fn next_word(&self, thread: u64) -> u64 {
        let state = &self.machine.state;
        let area = state.area(state.current_area(thread));
        area.first + area.used
    }

    /// An object whose last word has its bits in the map word after the header's, if that is near.
    fn long_shape(&mut self, thread: u64) -> Option<(u64, u64)> {
        let near = self.room(thread).min(NEAR);
        if near == 0 {
            return None;
        }
        let rest = 64 - self.next_word(thread) % 64 + self.random.below(3);
        let slots = self.random.below(4);
        (slots < rest && rest < near).then(|| (slots, rest - slots))
    }

    /// Sizes whose sum would wrap, and others that never fit.
    fn wild_shape(&mut self, thread: u64) -> (u64, u64) {
        let slots = match self.random.below(4) {
            0 => 0xffff,
            1 => self.random.below(0x1_0000),
            _ => self.random.below(4),
        };
        let used = 4_096 - self.room(thread).min(4_096);
        let data = match self.random.below(6) {
            0 => u64::MAX,
            1 => u64::MAX - slots - self.random.below(3),
            2 => (u64::MAX - slots - used).wrapping_add(self.random.below(8)),
            3 => 1 << self.random.between(13, 63),
            4 => self.random.word(),
            _ => self.random.below(3),
        };
        (slots, data)
    }

    /// A live object that fits, or after some tries any object.
    fn known(&mut self, fits: impl Fn(&Machine, &Known) -> bool) -> Known {
        for _ in 0..TRIES {
            let Some(known) = self.remembered() else {
                break;
            };
            if self.machine.is_live(known.handle) && fits(&self.machine, &known) {
                return known;
            }
        }
        let any = self.random.one_of(&self.known);
        any.unwrap_or(made_up(1 << 20))
    }

    /// Any object, the later ones more often.
    fn remembered(&mut self) -> Option<Known> {
        let latest = match (self.mood, self.random.percent(50)) {
            (Mood::Churn | Mood::Renew, _) => 12,
            (_, true) => 20,
            (_, false) => REMEMBERED,
        };
        let first = self.known.len().saturating_sub(latest);
        self.random.one_of(&self.known[first..])
    }

    fn object(&mut self, fits: impl Fn(&Known) -> bool) -> Known {
        if self.wild() {
            return made_up(self.wild_handle());
        }
        self.known(|_, known| fits(known))
    }

    /// Null, dead, forged or any numbers.
    fn wild_handle(&mut self) -> u64 {
        if self.mood == Mood::Renew && self.random.percent(60) {
            return self.removed_handle();
        }
        let known = self.random.one_of(&self.known).unwrap_or(made_up(1));
        match self.random.below(10) {
            0 => NULL,
            1 => self.random.word(),
            2 => self.random.below(4),
            3 => self.dead_handle(),
            4..=6 => self.stale_handle(),
            _ => self.forged(known.handle),
        }
    }

    fn dead_handle(&mut self) -> u64 {
        for _ in 0..TRIES {
            let known = self.random.one_of(&self.known);
            let Some(known) = known else { break };
            if !self.machine.is_live(known.handle) {
                return known.handle;
            }
        }
        1
    }

    /// A handle from before its scope was removed, where that is open again.
    fn removed_handle(&mut self) -> u64 {
        let state = &self.machine.state;
        let is_old = |known: &&Known| {
            let handle = Handle::unpack(known.handle);
            let removed = self.removed.get(&handle.area);
            state.is_open(handle.area) && removed.is_some_and(|&last| handle.generation <= last)
        };
        let old: Vec<Known> = self.known.iter().filter(is_old).copied().collect();
        match self.random.one_of(&old) {
            Some(known) => known.handle,
            None => self.dead_handle(),
        }
    }

    /// The place of a dead object under its scope's present generation: where a start bit or a word
    /// of the former use may have been left.
    fn stale_handle(&mut self) -> u64 {
        for _ in 0..2 * TRIES {
            let Some(known) = self.remembered() else {
                break;
            };
            let mut handle = Handle::unpack(known.handle);
            let area = self.machine.state.area(handle.area);
            if handle.generation < area.generation && handle.offset < area.used {
                handle.generation = area.generation;
                return handle.pack();
            }
        }
        self.dead_handle()
    }

    /// A number beside a given handle.
    fn forged(&mut self, word: u64) -> u64 {
        let mut handle = Handle::unpack(word);
        match self.random.below(7) {
            0 => return word ^ (1 << self.random.below(64)),
            1 => return word ^ (1 << self.random.below(64)) ^ (1 << self.random.below(20)),
            2 => return word.wrapping_add(self.random.between(1, 4)),
            3 => return word.wrapping_sub(self.random.between(1, 4)),
            4 => handle.area = self.random.below(AREAS),
            5 => handle.offset = self.random.below(64),
            _ => {}
        }
        // The present generation makes a stale place look fresh.
        handle.generation = self.machine.state.area(handle.area).generation;
        handle.pack()
    }

    /// Mostly an index below the number of slots or words, now and then the first one past them.
    fn index(&mut self, below: u64) -> u64 {
        if self.wild() {
            return self
                .random
                .one_of(&[0xffff, 0x4000, below + 1])
                .unwrap_or(0);
        }
        if below == 0 || self.random.percent(5) {
            return below;
        }
        self.random.below(below)
    }

    pub(super) fn store(&mut self) -> Call {
        let thread = self.thread();
        if self.kind(thread) == Some(Kind::Ordinary) && self.random.percent(50) {
            return self.store_outwards(thread);
        }
        let in_scope = self.random.percent(50);
        let holder = self.object(|known| known.slots > 0 && (!in_scope || known.in_scope()));
        let target = self.target(holder.handle);
        self.store_in(thread, holder, target)
    }

    /// A scope's object into one of the heap or immortal, which ends with 5 before 16 for a thread
    /// that has no right to scopes.
    fn store_outwards(&mut self, thread: u64) -> Call {
        let holder = self.object(|known| known.slots > 0 && !known.in_scope());
        let target = self.object(|known| known.in_scope()).handle;
        self.store_in(thread, holder, target)
    }

    fn store_in(&mut self, thread: u64, holder: Known, target: u64) -> Call {
        let slot = self.index(holder.slots);
        let object = holder.handle;
        let op = Op::Store {
            object,
            slot,
            target,
        };
        Call { thread, op }
    }

    fn target(&mut self, holder: u64) -> u64 {
        if self.wild() {
            return self.wild_handle();
        }
        if self.mood == Mood::Renew && self.random.percent(15) {
            return self.removed_handle();
        }
        match self.random.below(100) {
            0..=7 => NULL,
            8..=14 => self.wild_handle(),
            15..=34 => self.known(|_, known| known.in_scope()).handle,
            35..=49 => self.known(|_, _| true).handle,
            _ => self.allowed_target(Handle::unpack(holder).area),
        }
    }

    /// A target that the assignment rule allows, mostly one in a scope.
    fn allowed_target(&mut self, holder: u64) -> u64 {
        let in_scope = is_scope(holder) && self.random.percent(70);
        let allowed = |machine: &Machine, known: &Known| {
            let area = Handle::unpack(known.handle).area;
            (!in_scope || known.in_scope()) && machine.state.may_hold(holder, area)
        };
        self.known(allowed).handle
    }

    pub(super) fn load(&mut self) -> Call {
        let thread = self.thread();
        let place = self.random.one_of(&self.stored);
        let used = self.random.percent(self.mood.used_places());
        let (object, slot) = match place.filter(|_| used) {
            Some(place) => place,
            None => self.place(|known| known.slots),
        };
        let op = Op::Load { object, slot };
        Call { thread, op }
    }

    /// An object with an index into its slots or data.
    fn place(&mut self, size: impl Fn(&Known) -> u64) -> (u64, u64) {
        let known = self.object(|known| size(known) > 0);
        (known.handle, self.index(size(&known)))
    }

    pub(super) fn write(&mut self) -> Call {
        let thread = self.thread();
        let in_scope = self.mood == Mood::Churn;
        let known = self.object(|known| known.data > 0 && (!in_scope || known.in_scope()));
        let (object, index) = (known.handle, self.index(known.data));
        let word = self.data_word();
        let op = Op::Write {
            object,
            index,
            word,
        };
        Call { thread, op }
    }

    /// Data that looks like a handle or a header, and other words.
    fn data_word(&mut self) -> u64 {
        match self.random.below(6) {
            0 => self.known(|_, _| true).handle,
            1 => self.wild_handle(),
            2 => {
                let (slots, data) = (self.random.below(3), self.random.below(3));
                Header { slots, data }.pack()
            }
            3 => u64::MAX,
            4 => 0,
            _ => self.random.word(),
        }
    }

    /// A read of an object's last data word where an earlier object's was written, else a write.
    pub(super) fn use_last_word(&mut self, thread: u64, known: Known) -> Option<Call> {
        let object = known.handle;
        let index = known.data.checked_sub(1)?;
        let op = if self.is_stale(object, index) {
            Op::Read { object, index }
        } else {
            let word = self.data_word();
            Op::Write {
                object,
                index,
                word,
            }
        };
        Some(Call { thread, op })
    }

    pub(super) fn read(&mut self) -> Call {
        let thread = self.thread();
        let (object, index) = self.place_to_read();
        let op = Op::Read { object, index };
        Call { thread, op }
    }

    /// A data word that was written, one that only an earlier object's writing could have marked, or
    /// any.
    fn place_to_read(&mut self) -> (u64, u64) {
        let place = if self.random.percent(self.mood.used_places()) {
            self.random.one_of(&self.written)
        } else if self.random.percent(STALE) {
            self.stale_place()
        } else {
            None
        };
        place.unwrap_or_else(|| self.place(|known| known.data))
    }

    /// A data word of a live object that nobody wrote, where an earlier object's was written.
    fn stale_place(&mut self) -> Option<(u64, u64)> {
        for _ in 0..TRIES {
            let known = self.remembered()?;
            let stale: Vec<u64> = (0..known.data)
                .filter(|&index| self.is_stale(known.handle, index))
                .collect();
            if let Some(index) = self.random.one_of(&stale) {
                return Some((known.handle, index));
            }
        }
        None
    }

    fn is_stale(&self, object: u64, index: u64) -> bool {
        let number = self.machine.data_word(object, index);
        number.is_some_and(|number| {
            self.ever_written.contains(&number) && !self.machine.supplied.is_written(number)
        })
    }
}
