//! "Calls, checks and yields": ops 01 to 0c, the shown part and its status call, and the load of a
//! rights table.
//!
//! Each call runs its checks in the order of its row and changes nothing before the last one.

use crate::answer::{refuse_if, Answer, Outcome, Refusal};
use crate::blocks::BLOCK_WORDS;
use crate::layout::{Handle, Header, NULL};
use crate::memory::Memory;
use crate::rights::{Kind, Right, RightsTable};
use crate::state::{is_scope, Object, State, Thread, AREAS, FIRST_SCOPE};
use crate::state::{LAST_GENERATION, STACK_ENTRIES, THREADS};

/// One call of the table. Every field is any 64-bit number.
#[derive(Clone, Copy, Debug, PartialEq, Eq)]
pub struct Call {
    pub thread: u64,
    pub op: Op,
}

#[derive(Clone, Copy, Debug, PartialEq, Eq)]
pub enum Op {
    /// op 01
    Start { kind: u64 },
    /// op 02
    End,
    /// op 03
    Make { area: u64, size: u64 },
    /// op 04
    Enter { area: u64 },
    /// op 05
    Exit,
    /// op 06
    Allocate { slots: u64, data: u64 },
    /// op 07
    Store { object: u64, slot: u64, target: u64 },
    /// op 08
    Load { object: u64, slot: u64 },
    /// op 09
    Write { object: u64, index: u64, word: u64 },
    /// op 0a
    Read { object: u64, index: u64 },
    /// op 0b, called by the starter
    StartHelper { kind: u64, helper: u64 },
    /// op 0c
    Remove { area: u64 },
}

impl State {
    pub fn run(&mut self, supplied: &mut Memory, call: Call) -> Answer {
        self.outcome(supplied, call).into()
    }

    fn outcome(&mut self, supplied: &mut Memory, call: Call) -> Outcome {
        // "Every later call compares the three lengths", and with the written map a fourth.
        self.check_lengths(supplied)?;
        let thread = call.thread;
        match call.op {
            Op::Start { kind } => self.start(thread, kind),
            Op::End => self.end(thread),
            Op::Make { area, size } => self.make(thread, area, size),
            Op::Enter { area } => self.enter(thread, area),
            Op::Exit => self.exit(thread),
            Op::Allocate { slots, data } => self.allocate(supplied, thread, slots, data),
            Op::Store {
                object,
                slot,
                target,
            } => self.store(supplied, thread, object, slot, target),
            Op::Load { object, slot } => self.load(supplied, thread, object, slot),
            Op::Write {
                object,
                index,
                word,
            } => self.write(supplied, thread, object, index, word),
            Op::Read { object, index } => self.read(supplied, thread, object, index),
            Op::StartHelper { kind, helper } => self.start_helper(thread, kind, helper),
            Op::Remove { area } => self.remove(thread, area),
        }
    }

    /// "exactly its d words", which are raw words whether anybody wrote them or not; a refusal shows
    /// "a part of length 0".
    pub fn view_of<'a>(&self, supplied: &'a Memory, thread: u64, object: u64) -> &'a [u64] {
        match self.viewed_object(supplied, thread, object) {
            Ok(object) => supplied.part(object.first_data(), object.header.data),
            Err(_) => &[],
        }
    }

    /// "a call beside it yields the status"
    pub fn view_status_of(&self, supplied: &Memory, thread: u64, object: u64) -> Answer {
        let outcome = self.viewed_object(supplied, thread, object);
        outcome.map(|_| 0).into()
    }

    /// "Refusals of this call (1, 2, 13, 5)"
    fn viewed_object(
        &self,
        supplied: &Memory,
        thread: u64,
        object: u64,
    ) -> Result<Object, Refusal> {
        self.check_lengths(supplied)?;
        let kind = self.check_thread(thread)?;
        self.usable_object(supplied, kind, object)
    }

    /// A load, one of the "calls without an op", which "are lent no buffer of set-up and skip 1".
    pub fn load_rights(&mut self, text: &[u8]) -> Answer {
        self.loaded(text).into()
    }

    /// 23, 24.
    fn loaded(&mut self, text: &[u8]) -> Outcome {
        let table = RightsTable::from_text(text).ok_or(Refusal::Table)?;
        let started = self.threads.iter().any(|thread| thread.kind.is_some());
        refuse_if(started, Refusal::Running)?;
        self.rights = table;
        Ok(0)
    }

    /// Op 01: 1, 2, 3, 4.
    fn start(&mut self, thread: u64, kind: u64) -> Outcome {
        let kind = self.check_new_thread(thread, kind)?;
        self.threads[thread as usize].kind = Some(kind);
        Ok(0)
    }

    /// Op 02: 1, 2, 11.
    fn end(&mut self, thread: u64) -> Outcome {
        self.check_thread(thread)?;
        let has_entries = !self.thread(thread).stack.is_empty();
        refuse_if(has_entries, Refusal::Entries)?;
        self.threads[thread as usize].kind = None;
        Ok(0)
    }

    /// Op 03: 1, 2, 6, 7, 8.
    fn make(&mut self, thread: u64, area: u64, size: u64) -> Outcome {
        self.check_thread(thread)?;
        check_scope_number(area)?;
        refuse_if(self.area(area).made, Refusal::Made)?;
        let block = self.room_for(size).ok_or(Refusal::Size)?;
        self.place_scope(area, block, size);
        Ok(0)
    }

    /// The scope lies from a block on and has whole blocks; its size stays as asked, and its
    /// generation as it was.
    fn place_scope(&mut self, area: u64, block: u64, size: u64) {
        let scope = &mut self.areas[area as usize];
        scope.made = true;
        scope.first = self.lengths.permanent + block * BLOCK_WORDS;
        scope.size = size;
        self.set_used(area, true);
    }

    fn set_used(&mut self, scope: u64, used: bool) {
        let blocks = self.blocks_of(scope);
        self.used_blocks[blocks].fill(used);
    }

    /// Op 04: 1, 2, 6, 5, 9, 10, 17.
    fn enter(&mut self, thread: u64, area: u64) -> Outcome {
        let kind = self.check_thread(thread)?;
        let exists = area < AREAS && self.area(area).made;
        refuse_if(!exists, Refusal::Area)?;
        self.check_right(kind, area, Right::Enter)?;
        let entries = self.thread(thread).stack.len();
        refuse_if(entries >= STACK_ENTRIES, Refusal::StackFull)?;
        if is_scope(area) {
            self.enter_scope(area, self.innermost_scope(thread))?;
        }
        self.threads[thread as usize].stack.push(area);
        Ok(self.area(area).generation)
    }

    fn enter_scope(&mut self, area: u64, innermost: Option<u64>) -> Result<(), Refusal> {
        if self.is_open(area) {
            return self.enter_open_scope(area, innermost);
        }
        self.open_scope(area, innermost)
    }

    /// "An open scope may be entered only if its parent equals that innermost scope; its count
    /// rises by 1."
    fn enter_open_scope(&mut self, area: u64, innermost: Option<u64>) -> Result<(), Refusal> {
        let scope = &mut self.areas[area as usize];
        refuse_if(scope.parent != innermost, Refusal::Parent)?;
        scope.count += 1;
        Ok(())
    }

    /// "Entering a scope that isn't open fixes its parent ... It sets its turn one higher ..., its
    /// used words to 0 and its count to 1."
    fn open_scope(&mut self, area: u64, innermost: Option<u64>) -> Result<(), Refusal> {
        let scope = &mut self.areas[area as usize];
        refuse_if(scope.generation >= LAST_GENERATION, Refusal::GenerationsOut)?;
        scope.parent = innermost;
        scope.generation += 1;
        scope.used = 0;
        scope.count = 1;
        Ok(())
    }

    /// Op 05: 1, 2, 11. "Exit takes off the top entry."
    fn exit(&mut self, thread: u64) -> Outcome {
        self.check_thread(thread)?;
        let stack = &mut self.threads[thread as usize].stack;
        let top = stack.pop().ok_or(Refusal::Entries)?;
        if is_scope(top) {
            return Ok(self.leave_scope(top));
        }
        Ok(0)
    }

    /// "its count falls by 1; at 0 the scope has no parent and no used words"
    fn leave_scope(&mut self, area: u64) -> u64 {
        let scope = &mut self.areas[area as usize];
        scope.count -= 1;
        if scope.count == 0 {
            scope.parent = None;
            scope.used = 0;
        }
        scope.count
    }

    /// Op 06: 1, 2, 5, 12.
    fn allocate(&mut self, supplied: &mut Memory, thread: u64, slots: u64, data: u64) -> Outcome {
        let kind = self.check_thread(thread)?;
        let current = self.current_area(thread);
        self.check_right(kind, current, Right::Allocate)?;
        let area = &mut self.areas[current as usize];
        let needed = u128::from(area.used) + 1 + u128::from(slots) + u128::from(data);
        refuse_if(needed > u128::from(area.size), Refusal::Room)?;
        let offset = area.used;
        let header = Header { slots, data };
        write_object(supplied, area.first + offset, header);
        area.used += header.words();
        let generation = area.generation;
        let handle = Handle {
            offset,
            area: current,
            generation,
        };
        Ok(handle.pack())
    }

    /// Op 07: 1, 2, 13, 5 (U), 14, 15, 5 (R), 16.
    fn store(
        &self,
        supplied: &mut Memory,
        thread: u64,
        object: u64,
        slot: u64,
        target: u64,
    ) -> Outcome {
        let kind = self.check_thread(thread)?;
        let holder = self.usable_object(supplied, kind, object)?;
        refuse_if(slot >= holder.header.slots, Refusal::Index)?;
        self.check_reference(supplied, kind, target)?;
        self.check_assignment(holder.area, target)?;
        supplied.set_word(holder.first_slot() + slot, target);
        Ok(0)
    }

    /// Op 08: 1, 2, 13, 5 (U), 14, 15, 5 (R).
    fn load(&self, supplied: &Memory, thread: u64, object: u64, slot: u64) -> Outcome {
        let kind = self.check_thread(thread)?;
        let holder = self.usable_object(supplied, kind, object)?;
        refuse_if(slot >= holder.header.slots, Refusal::Index)?;
        let stored = supplied.word(holder.first_slot() + slot);
        self.check_reference(supplied, kind, stored)?;
        Ok(stored)
    }

    /// Op 09: 1, 2, 13, 5, 14.
    fn write(
        &self,
        supplied: &mut Memory,
        thread: u64,
        object: u64,
        index: u64,
        word: u64,
    ) -> Outcome {
        let kind = self.check_thread(thread)?;
        let object = self.usable_object(supplied, kind, object)?;
        refuse_if(index >= object.header.data, Refusal::Index)?;
        let number = object.first_data() + index;
        supplied.set_word(number, word);
        // "op 09 sets the word's bit"
        supplied.set_written(number, true);
        Ok(0)
    }

    /// Op 0a: 1, 2, 13, 5, 14, 19.
    fn read(&self, supplied: &Memory, thread: u64, object: u64, index: u64) -> Outcome {
        let kind = self.check_thread(thread)?;
        let object = self.usable_object(supplied, kind, object)?;
        refuse_if(index >= object.header.data, Refusal::Index)?;
        let number = object.first_data() + index;
        refuse_if(!supplied.is_written(number), Refusal::Unwritten)?;
        Ok(supplied.word(number))
    }

    /// Op 0b: 1, 2 (starter), 2 (helper, above 15 only), 3 (helper), 4, 5. "The new thread receives
    /// the same entries, and the count of each scope rises by one."
    fn start_helper(&mut self, starter: u64, kind: u64, helper: u64) -> Outcome {
        self.check_thread(starter)?;
        let kind = self.check_new_thread(helper, kind)?;
        let stack = self.thread(starter).stack.clone();
        for &area in &stack {
            self.check_right(kind, area, Right::Enter)?;
        }
        for &scope in stack.iter().filter(|&&area| is_scope(area)) {
            self.areas[scope as usize].count += 1;
        }
        let kind = Some(kind);
        self.threads[helper as usize] = Thread { kind, stack };
        Ok(0)
    }

    /// Op 0c: 1, 2, 6 (outside 2 to 63, or not made), 20. It "removes scope q and frees its room".
    fn remove(&mut self, thread: u64, area: u64) -> Outcome {
        self.check_thread(thread)?;
        check_scope_number(area)?;
        refuse_if(!self.area(area).made, Refusal::Area)?;
        refuse_if(self.is_open(area), Refusal::Open)?;
        self.set_used(area, false);
        self.forget_scope(area);
        Ok(0)
    }

    /// "A removed scope counts as not made"; made again, it "continues its old turns".
    fn forget_scope(&mut self, area: u64) {
        let scope = &mut self.areas[area as usize];
        scope.made = false;
        scope.first = 0;
        scope.size = 0;
    }

    /// Refusal 1: "lengths are not those of set-up".
    fn check_lengths(&self, supplied: &Memory) -> Result<(), Refusal> {
        refuse_if(supplied.lengths() != self.lengths, Refusal::Lengths)
    }

    /// Refusal 2: "thread above 15, or not started".
    fn check_thread(&self, thread: u64) -> Result<Kind, Refusal> {
        refuse_if(thread >= THREADS, Refusal::Thread)?;
        self.thread(thread).kind.ok_or(Refusal::Thread)
    }

    /// A thread that is to be started: refusals 2, "above 15 only", 3 and 4. Its kind.
    fn check_new_thread(&self, thread: u64, kind: u64) -> Result<Kind, Refusal> {
        refuse_if(thread >= THREADS, Refusal::Thread)?;
        refuse_if(self.thread(thread).kind.is_some(), Refusal::Started)?;
        Kind::from_number(kind).ok_or(Refusal::Kind)
    }

    /// Refusal 13, "object null or not live", then 5 (U).
    fn usable_object(&self, supplied: &Memory, kind: Kind, word: u64) -> Result<Object, Refusal> {
        refuse_if(word == NULL, Refusal::Object)?;
        let object = self.resolve(supplied, word).ok_or(Refusal::Object)?;
        self.check_right(kind, object.area, Right::Use)?;
        Ok(object)
    }

    /// Refusal 15, "neither null nor live", then 5 (R), "where null always passes".
    fn check_reference(&self, supplied: &Memory, kind: Kind, word: u64) -> Result<(), Refusal> {
        if word == NULL {
            return Ok(());
        }
        let target = self.resolve(supplied, word).ok_or(Refusal::Target)?;
        self.check_right(kind, target.area, Right::Refer)
    }

    /// Refusal 16; "Null may be stored always."
    fn check_assignment(&self, holder: u64, target: u64) -> Result<(), Refusal> {
        let allowed = target == NULL || self.may_hold(holder, Handle::unpack(target).area);
        refuse_if(!allowed, Refusal::Assignment)
    }

    /// Refusal 5: "rights table has 0".
    fn check_right(&self, kind: Kind, area: u64, right: Right) -> Result<(), Refusal> {
        refuse_if(!self.rights.has_right(kind, area, right), Refusal::Right)
    }
}

/// Refusal 6: "outside 2 to 63".
fn check_scope_number(area: u64) -> Result<(), Refusal> {
    refuse_if(!(FIRST_SCOPE..AREAS).contains(&area), Refusal::Area)
}

/// The header, then "sets slots and data to 0, sets the map bit of the header and clears those of
/// its other words". The written map: "allocation clears it for the object's words".
fn write_object(supplied: &mut Memory, first: u64, header: Header) {
    for number in first..first + header.words() {
        supplied.set_word(number, 0);
        supplied.set_start(number, false);
        supplied.set_written(number, false);
    }
    supplied.set_word(first, header.pack());
    supplied.set_start(first, true);
}
