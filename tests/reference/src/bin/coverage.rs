//! `coverage FIRST_SEED LISTS COUNT` runs generated lists and prints how often each op gave each
//! status, which lines were no frames, and which situations came up. It ends with status 1 if one
//! that can come up never did.

use std::collections::{BTreeMap, BTreeSet};
use std::ops::Range;
use std::process::exit;

use reference::answer::Answer;
use reference::blocks::{blocks_for, BLOCK_WORDS};
use reference::calls::{Call, Op};
use reference::frame;
use reference::layout::{Handle, NULL};
use reference::machine::Machine;
use reference::rights::{Kind, Right};
use reference::state::{is_scope, Area, State};
use reference::state::{AREAS, FIRST_SCOPE, HEAP, IMMORTAL, STACK_ENTRIES, THREADS};
use reference::{arguments, generator};

/// The statuses that frames can reach, for ops 01 to 0c. Refusal 1 needs other lengths, 17 needs
/// 2^44 - 1 entries, and op 08 yields no 15.
const REACHABLE: [&[u64]; 12] = [
    &[0, 2, 3, 4],
    &[0, 2, 11],
    &[0, 2, 6, 7, 8],
    &[0, 2, 5, 6, 9, 10],
    &[0, 2, 11],
    &[0, 2, 5, 12],
    &[0, 2, 5, 13, 14, 15, 16],
    &[0, 2, 5, 13, 14],
    &[0, 2, 5, 13, 14],
    &[0, 2, 5, 13, 14, 19],
    &[0, 2, 3, 4, 5],
    &[0, 2, 6, 20],
];

/// The ways in which a line is no frame.
const SPOILT: [&str; 19] = [
    "empty",
    "byte above 7f",
    "NUL",
    "carriage return",
    "blank",
    "upper case",
    "another byte",
    "short",
    "long",
    "longer than 64 KiB",
    "op that does not exist",
    "unused field of op 01",
    "unused field of op 02 or 05",
    "unused field of op 03 or 06",
    "unused field of op 04",
    "unused field of op 08 or 0a",
    "unused field of op 0b",
    "unused field of op 0c",
    "last line feed missing",
];

/// What the lists are meant to bring about.
const SITUATIONS: [&str; 79] = [
    "stack of 32 entries",
    "32 scopes on one stack",
    "10 where the stack is not empty",
    "9 that hides a 10",
    "9 for an ordinary thread",
    "9 for a no-heap thread",
    "scope entered by two threads",
    "scope entered by four threads",
    "scope opened a second time",
    "scope opened a tenth time",
    "parent passed over heap or immortal",
    "area filled to its last word",
    "all blocks of scratch used",
    "all 62 scopes made",
    "07 within one scope",
    "07 of an ancestor's object",
    "07 of a heap object",
    "07 of an immortal object",
    "07 of null",
    "07 by a thread in neither scope",
    "16 of a descendant's object",
    "16 of another branch's object",
    "16 in heap or immortal",
    "07 gives 5 for U",
    "07 gives 5 for R",
    "07 gives 5 for R before 16",
    "08 gives 5 for U",
    "08 gives 5 for R",
    "08 yields a reference",
    "08 yields null to a no-heap thread",
    "13 or 15 for a dead handle",
    "13 or 15 for a number never given",
    "13 or 15 for a place inside an object",
    "0a yields a 0 that was written",
    "0a yields a word that was written twice",
    "19 beside a word that was written",
    "19 where an earlier object was written",
    "19 there, in another map word than the header's",
    "19 where a write was refused",
    "14 that hides a 19",
    "0b for an ordinary helper",
    "0b for a real-time helper",
    "0b for a no-heap helper",
    "0b for a no-heap helper on an empty stack",
    "0b on a stack of 32 entries",
    "0b on 32 scopes",
    "0b on heap or immortal entries beside scopes",
    "0b by a helper",
    "0b gives 2 for the helper",
    "0b gives 3 for the starter",
    "0b gives 5 for an entry under the top",
    "scope left open to helpers alone",
    "scope emptied by a thread that never entered it",
    "scope of 16 k - 1 words made in k blocks",
    "scope of 16 k words made in k blocks",
    "scope of 16 k + 1 words made in k + 1 blocks",
    "scope made in a gap that it fills",
    "scope made above a gap that is too short",
    "scope made again at its old place",
    "scope made again at another place",
    "room of a removed scope used by another scope",
    "room of two removed scopes used by one scope",
    "8 although enough blocks are free in all",
    "8 for 16 k + 1 words where 16 k fit",
    "8 where size + 15 passes 2^64",
    "0c of a scope that was never entered",
    "0c of a scope that was emptied",
    "0c gives 6 for heap or immortal",
    "0c gives 6 for a number above 63",
    "0c gives 6 for a scope that was never made",
    "0c gives 6 for a removed scope",
    "0c gives 20 to a thread in the scope",
    "0c gives 20 to a thread outside the scope",
    "04 gives 6 for a removed scope",
    "scope opened with its old generation and 1 after a removal",
    "13 for a handle from before a removal, its scope open again",
    "15 for a handle from before a removal, its scope open again",
    "19 where an object of another scope was written",
    "several faults in one call",
];

/// What the calls of a list so far have left behind.
#[derive(Default)]
struct Past {
    /// The handles that allocations gave.
    given: Vec<u64>,
    /// How often each data word of a handle was written.
    writings: BTreeMap<(u64, u64), u64>,
    /// Data words of a handle for which a write was refused.
    refused: BTreeSet<(u64, u64)>,
    /// The numbers of words that were ever written, whatever object lay there, and its area.
    ever_written: BTreeMap<u64, u64>,
    /// How many of its lowest entries each helper received from its starter and still has.
    received: BTreeMap<u64, usize>,
    /// Each scope's record and blocks before it was last removed.
    removed: BTreeMap<u64, (Area, Range<usize>)>,
}

#[derive(Default)]
struct Coverage {
    statuses: BTreeMap<(u64, u64), u64>,
    spoilt: BTreeMap<&'static str, u64>,
    situations: BTreeMap<&'static str, u64>,
}

fn main() {
    let [first, lists, count] = arguments::numbers("coverage FIRST_SEED LISTS COUNT");
    let mut coverage = Coverage::default();
    for seed in first..first + lists {
        coverage.add_list(&generator::list(seed, count));
    }
    coverage.print_statuses();
    print_counts("lines that are no frames (18)", &SPOILT, &coverage.spoilt);
    print_counts("situations", &SITUATIONS, &coverage.situations);
    let missing = coverage.missing();
    println!("{missing} not reached");
    exit(i32::from(missing > 0));
}

impl Coverage {
    fn add_list(&mut self, list: &[u8]) {
        let mut machine = Machine::for_frames();
        let mut past = Past::default();
        for line in frame::lines(list) {
            match frame::parse(line) {
                Some(call) => self.add_call(&mut machine, &mut past, call),
                None => count(&mut self.spoilt, fault_of(line)),
            }
        }
        if !list.is_empty() && !list.ends_with(b"\n") {
            count(&mut self.spoilt, "last line feed missing");
        }
    }

    fn add_call(&mut self, machine: &mut Machine, past: &mut Past, call: Call) {
        let before = machine.state.clone();
        let faults = faults(machine, call);
        let answer = machine.run(call);
        let (op, p, q, r) = frame::fields(call.op);
        *self.statuses.entry((op, answer.status)).or_default() += 1;
        if faults > 1 {
            count(&mut self.situations, "several faults in one call");
        }
        match answer.status {
            0 if op == 0x0a => self.add_read(past, (p, q), answer.value),
            0 if op == 0x05 => self.add_exit(&before, past, call.thread, answer.value),
            0 if op == 0x0b => self.add_helper(&before, past, call.thread, p),
            0 if op == 0x03 => self.add_made(&before, &machine.state, past, q),
            0 if op == 0x04 => self.add_entry(&before, &machine.state, past, call),
            0 if op == 0x0c => self.add_removed(&before, q),
            0 => self.add_accepted(&before, &machine.state, call, answer.value),
            2 | 3 if op == 0x0b => self.add_helper_number(&before, call.thread, q, answer.status),
            5 if op == 0x0b => self.add_helper_right(&before, call.thread, p),
            5 => self.add_right(&before, call),
            6 => self.add_not_made(past, call.op),
            8 => self.add_no_room(&before, r),
            9 | 10 => self.add_entry_refused(&before, call, answer.status),
            13 => self.add_dead(&before, past, p, 13),
            14 => self.add_past_data(machine, call.op),
            15 => self.add_dead(&before, past, r, 15),
            16 => self.add_forbidden(&before, p, r),
            19 => self.add_unwritten(machine, past, (p, q)),
            20 => self.add_open(&before, call.thread, q),
            _ => {}
        }
        past.step(machine, call.op, answer);
        if answer.is_accepted() {
            past.step_entries(&machine.state, call);
            past.step_removal(&before, call.op);
        }
    }

    fn add_accepted(&mut self, before: &State, after: &State, call: Call, value: u64) {
        match call.op {
            Op::Allocate { .. } => self.add_filled(after, call.thread),
            Op::Store { object, target, .. } => self.add_store(before, call.thread, object, target),
            Op::Load { .. } => self.add_load(before, call.thread, value),
            _ => {}
        }
    }

    fn note(&mut self, happened: bool, situation: &'static str) {
        if happened {
            count(&mut self.situations, situation);
        }
    }

    fn add_made(&mut self, before: &State, after: &State, past: &Past, scope: u64) {
        let full = after.used_blocks.iter().all(|&used| used);
        self.note(full, "all blocks of scratch used");
        let all_made = after.areas.iter().all(|area| area.made);
        self.note(all_made, "all 62 scopes made");
        self.add_blocks(before, after, scope);
        self.add_made_again(after, past, scope);
    }

    fn add_blocks(&mut self, before: &State, after: &State, scope: u64) {
        let size = after.area(scope).size;
        let taken = free_blocks(before) - free_blocks(after);
        let (k, rest) = (size / BLOCK_WORDS, size % BLOCK_WORDS);
        self.note(
            rest == BLOCK_WORDS - 1 && taken == k + 1,
            "scope of 16 k - 1 words made in k blocks",
        );
        self.note(
            rest == 0 && taken == k,
            "scope of 16 k words made in k blocks",
        );
        self.note(
            rest == 1 && taken == k + 1,
            "scope of 16 k + 1 words made in k + 1 blocks",
        );
        let blocks = after.blocks_of(scope);
        let used = &before.used_blocks;
        let closed_above = used.get(blocks.end) == Some(&true);
        let closed_below = blocks.start == 0 || used[blocks.start - 1];
        self.note(
            closed_below && closed_above,
            "scope made in a gap that it fills",
        );
        self.note(
            used[..blocks.start].contains(&false),
            "scope made above a gap that is too short",
        );
    }

    fn add_made_again(&mut self, after: &State, past: &Past, scope: u64) {
        let first = after.area(scope).first;
        let old = past.removed.get(&scope).map(|(area, _)| area.first);
        self.note(
            old.is_some_and(|old| old == first),
            "scope made again at its old place",
        );
        self.note(
            old.is_some_and(|old| old != first),
            "scope made again at another place",
        );
        let blocks = after.blocks_of(scope);
        let others = past.removed.iter().filter(|(&other, (_, freed))| {
            other != scope && freed.start < blocks.end && blocks.start < freed.end
        });
        let others = others.count();
        self.note(others > 0, "room of a removed scope used by another scope");
        self.note(others > 1, "room of two removed scopes used by one scope");
    }

    fn add_no_room(&mut self, state: &State, size: u64) {
        let free = free_blocks(state);
        self.note(
            size > 0 && blocks_for(size) <= free,
            "8 although enough blocks are free in all",
        );
        self.note(
            size % BLOCK_WORDS == 1 && state.room_for(size - 1).is_some(),
            "8 for 16 k + 1 words where 16 k fit",
        );
        self.note(
            size.checked_add(BLOCK_WORDS - 1).is_none(),
            "8 where size + 15 passes 2^64",
        );
    }

    fn add_removed(&mut self, before: &State, scope: u64) {
        let entered = before.area(scope).generation > 0;
        self.note(!entered, "0c of a scope that was never entered");
        self.note(entered, "0c of a scope that was emptied");
    }

    /// Refusal 6 of ops 04 and 0c.
    fn add_not_made(&mut self, past: &Past, op: Op) {
        match op {
            Op::Enter { area } => {
                let removed = past.removed.contains_key(&area);
                self.note(removed, "04 gives 6 for a removed scope");
            }
            Op::Remove { area } => self.add_nothing_to_remove(past, area),
            _ => {}
        }
    }

    fn add_nothing_to_remove(&mut self, past: &Past, area: u64) {
        let removed = past.removed.contains_key(&area);
        let scope = (FIRST_SCOPE..AREAS).contains(&area);
        self.note(area < FIRST_SCOPE, "0c gives 6 for heap or immortal");
        self.note(area >= AREAS, "0c gives 6 for a number above 63");
        self.note(
            scope && !removed,
            "0c gives 6 for a scope that was never made",
        );
        self.note(removed, "0c gives 6 for a removed scope");
    }

    fn add_open(&mut self, state: &State, thread: u64, scope: u64) {
        let inside = state.thread(thread).stack.contains(&scope);
        self.note(inside, "0c gives 20 to a thread in the scope");
        self.note(!inside, "0c gives 20 to a thread outside the scope");
    }

    fn add_entry(&mut self, before: &State, after: &State, past: &Past, call: Call) {
        let Op::Enter { area } = call.op else { return };
        let thread = call.thread;
        let stack = &after.thread(thread).stack;
        let scopes = stack.iter().filter(|&&area| is_scope(area)).count();
        let entered = after.area(area);
        let opened = is_scope(area) && entered.count == 1;
        self.note(stack.len() == STACK_ENTRIES, "stack of 32 entries");
        self.note(scopes == STACK_ENTRIES, "32 scopes on one stack");
        self.note(entered.count == 2, "scope entered by two threads");
        self.note(entered.count == 4, "scope entered by four threads");
        self.note(
            opened && entered.generation == 2,
            "scope opened a second time",
        );
        self.note(
            opened && entered.generation == 10,
            "scope opened a tenth time",
        );
        let top_is_parent = before.thread(thread).stack.last() == entered.parent.as_ref();
        let passed_over = opened && entered.parent.is_some() && !top_is_parent;
        self.note(passed_over, "parent passed over heap or immortal");
        let removed = past.removed.get(&area).map_or(0, |(old, _)| old.generation);
        self.note(
            opened && removed > 0 && entered.generation == removed + 1,
            "scope opened with its old generation and 1 after a removal",
        );
    }

    fn add_filled(&mut self, after: &State, thread: u64) {
        let area = after.area(after.current_area(thread));
        self.note(area.used == area.size, "area filled to its last word");
    }

    fn add_store(&mut self, state: &State, thread: u64, holder: u64, target: u64) {
        let (from, to) = (area_of(holder), area_of(target));
        if target == NULL {
            return self.note(true, "07 of null");
        }
        self.note(is_scope(to) && from == to, "07 within one scope");
        self.note(is_scope(to) && from != to, "07 of an ancestor's object");
        self.note(to == HEAP, "07 of a heap object");
        self.note(to == IMMORTAL, "07 of an immortal object");
        let stack = &state.thread(thread).stack;
        let in_neither = !stack.contains(&from) && !stack.contains(&to);
        self.note(
            is_scope(to) && in_neither,
            "07 by a thread in neither scope",
        );
    }

    fn add_load(&mut self, state: &State, thread: u64, value: u64) {
        self.note(value != NULL, "08 yields a reference");
        let no_heap = state.thread(thread).kind.map(|kind| kind as u64) == Some(3);
        self.note(
            value == NULL && no_heap,
            "08 yields null to a no-heap thread",
        );
    }

    fn add_read(&mut self, past: &Past, place: (u64, u64), value: u64) {
        self.note(value == 0, "0a yields a 0 that was written");
        let twice = past.writings.get(&place) == Some(&2);
        self.note(twice, "0a yields a word that was written twice");
    }

    fn add_unwritten(&mut self, machine: &Machine, past: &Past, place: (u64, u64)) {
        let (word, index) = place;
        let Some(object) = machine.state.resolve(&machine.supplied, word) else {
            return;
        };
        let number = object.first_data() + index;
        let beside = past.writings.keys().any(|&(handle, _)| handle == word);
        let writer = past.ever_written.get(&number);
        let stale = writer.is_some();
        let other_scope = writer.is_some_and(|&area| area != object.area);
        let other_map_word = object.first / 64 != number / 64;
        let refused = past.refused.contains(&place);
        self.note(beside, "19 beside a word that was written");
        self.note(stale, "19 where an earlier object was written");
        self.note(
            stale && other_map_word,
            "19 there, in another map word than the header's",
        );
        self.note(refused, "19 where a write was refused");
        self.note(
            other_scope,
            "19 where an object of another scope was written",
        );
    }

    fn add_exit(&mut self, before: &State, past: &Past, thread: u64, left: u64) {
        let scope = before.current_area(thread);
        if !is_scope(scope) {
            return;
        }
        let never_entered = past.was_born_in(before, thread, scope);
        self.note(
            left == 0 && never_entered,
            "scope emptied by a thread that never entered it",
        );
        let stands = |&other: &u64| before.thread(other).stack.contains(&scope);
        let mut others = (0..THREADS).filter(|&other| other != thread).filter(stands);
        let to_helpers = others.all(|other| past.was_born_in(before, other, scope));
        self.note(
            left > 0 && !never_entered && to_helpers,
            "scope left open to helpers alone",
        );
    }

    fn add_helper(&mut self, before: &State, past: &Past, starter: u64, kind: u64) {
        let stack = &before.thread(starter).stack;
        let scopes = stack.iter().filter(|&&area| is_scope(area)).count();
        self.note(kind == 1, "0b for an ordinary helper");
        self.note(kind == 2, "0b for a real-time helper");
        self.note(kind == 3, "0b for a no-heap helper");
        self.note(
            kind == 3 && stack.is_empty(),
            "0b for a no-heap helper on an empty stack",
        );
        self.note(stack.len() == STACK_ENTRIES, "0b on a stack of 32 entries");
        self.note(scopes == STACK_ENTRIES, "0b on 32 scopes");
        self.note(
            0 < scopes && scopes < stack.len(),
            "0b on heap or immortal entries beside scopes",
        );
        self.note(past.received.contains_key(&starter), "0b by a helper");
    }

    fn add_helper_number(&mut self, before: &State, starter: u64, helper: u64, status: u64) {
        let started = starter < THREADS && before.thread(starter).kind.is_some();
        self.note(status == 2 && started, "0b gives 2 for the helper");
        self.note(
            status == 3 && helper == starter,
            "0b gives 3 for the starter",
        );
    }

    fn add_helper_right(&mut self, before: &State, starter: u64, kind: u64) {
        let Some(kind) = Kind::from_number(kind) else {
            return;
        };
        let top = before.current_area(starter);
        self.note(
            before.rights.has_right(kind, top, Right::Enter),
            "0b gives 5 for an entry under the top",
        );
    }

    /// An index past an object's data, at a word that is not marked as written.
    fn add_past_data(&mut self, machine: &Machine, op: Op) {
        let Op::Read { object, index } = op else {
            return;
        };
        let number = machine.data_word(object, index);
        let unmarked = number.is_some_and(|number| !machine.supplied.is_written(number));
        self.note(unmarked, "14 that hides a 19");
    }

    fn add_right(&mut self, state: &State, call: Call) {
        let (op, object, _, target) = frame::fields(call.op);
        let Some(kind) = state.thread(call.thread).kind else {
            return;
        };
        let usable = state.rights.has_right(kind, area_of(object), Right::Use);
        self.note(op == 0x07 && !usable, "07 gives 5 for U");
        self.note(op == 0x07 && usable, "07 gives 5 for R");
        let forbidden = !state.may_hold(area_of(object), area_of(target));
        self.note(
            op == 0x07 && usable && forbidden,
            "07 gives 5 for R before 16",
        );
        self.note(op == 0x08 && !usable, "08 gives 5 for U");
        self.note(op == 0x08 && usable, "08 gives 5 for R");
    }

    fn add_entry_refused(&mut self, state: &State, call: Call, status: u64) {
        let Op::Enter { area } = call.op else { return };
        let thread = state.thread(call.thread);
        let innermost = state.innermost_scope(call.thread);
        let wrong_parent = state.is_open(area) && state.area(area).parent != innermost;
        let kind = thread.kind.map(|kind| kind as u64);
        self.note(
            status == 10 && !thread.stack.is_empty(),
            "10 where the stack is not empty",
        );
        self.note(status == 9 && wrong_parent, "9 that hides a 10");
        self.note(status == 9 && kind == Some(1), "9 for an ordinary thread");
        self.note(status == 9 && kind == Some(3), "9 for a no-heap thread");
    }

    fn add_dead(&mut self, state: &State, past: &Past, word: u64, status: u64) {
        let handle = Handle::unpack(word);
        let area = state.area(handle.area);
        let inside = handle.generation == area.generation && handle.offset < area.used;
        self.note(inside, "13 or 15 for a place inside an object");
        let was_given = past.given.contains(&word);
        self.note(was_given, "13 or 15 for a dead handle");
        let removed = past.removed.get(&handle.area);
        let before = removed.is_some_and(|(old, _)| handle.generation <= old.generation);
        let again = was_given && before && state.is_open(handle.area);
        self.note(
            again && status == 13,
            "13 for a handle from before a removal, its scope open again",
        );
        self.note(
            again && status == 15,
            "15 for a handle from before a removal, its scope open again",
        );
        self.note(
            !was_given && word != NULL,
            "13 or 15 for a number never given",
        );
    }

    fn add_forbidden(&mut self, state: &State, holder: u64, target: u64) {
        let (from, to) = (area_of(holder), area_of(target));
        let descendant = state.walk(to).any(|met| met == from);
        self.note(!is_scope(from), "16 in heap or immortal");
        self.note(is_scope(from) && descendant, "16 of a descendant's object");
        self.note(
            is_scope(from) && !descendant,
            "16 of another branch's object",
        );
    }

    fn print_statuses(&self) {
        let statuses: Vec<u64> = [0].into_iter().chain(2..=16).chain([19, 20]).collect();
        print!("op");
        for status in &statuses {
            print!("{status:>8}");
        }
        println!();
        for op in 1..=12 {
            print!("{op:02x}");
            for status in &statuses {
                match self.statuses.get(&(op, *status)) {
                    Some(times) => print!("{times:>8}"),
                    None => print!("{:>8}", "."),
                }
            }
            println!();
        }
    }

    /// How many of the statuses, spoilt lines and situations never came up.
    fn missing(&self) -> usize {
        let statuses = (1..).zip(REACHABLE).flat_map(|(op, statuses)| {
            let pairs = statuses.iter().map(move |&status| (op, status));
            pairs.collect::<Vec<_>>()
        });
        statuses.filter(|p| !self.statuses.contains_key(p)).count()
            + absent(&SPOILT, &self.spoilt)
            + absent(&SITUATIONS, &self.situations)
    }
}

fn absent(names: &[&'static str], counts: &BTreeMap<&'static str, u64>) -> usize {
    names
        .iter()
        .filter(|name| !counts.contains_key(*name))
        .count()
}

fn print_counts(title: &str, names: &[&'static str], counts: &BTreeMap<&'static str, u64>) {
    println!("\n{title}");
    for name in names {
        println!("{:>8}  {name}", counts.get(name).unwrap_or(&0));
    }
}

fn count(counts: &mut BTreeMap<&'static str, u64>, name: &'static str) {
    *counts.entry(name).or_default() += 1;
}

fn area_of(handle: u64) -> u64 {
    Handle::unpack(handle).area
}

fn free_blocks(state: &State) -> u64 {
    state.used_blocks.iter().filter(|&&used| !used).count() as u64
}

impl Past {
    fn step(&mut self, machine: &Machine, op: Op, answer: Answer) {
        match op {
            Op::Allocate { .. } if answer.is_accepted() => self.given.push(answer.value),
            Op::Write { object, index, .. } if answer.is_accepted() => {
                *self.writings.entry((object, index)).or_default() += 1;
                let number = machine.data_word(object, index);
                self.ever_written
                    .extend(number.map(|number| (number, area_of(object))));
            }
            Op::Write { object, index, .. } => {
                self.refused.insert((object, index));
            }
            _ => {}
        }
    }

    /// An accepted call, with the state after it.
    fn step_entries(&mut self, after: &State, call: Call) {
        let entries = |thread: u64| after.thread(thread).stack.len();
        match call.op {
            Op::StartHelper { helper, .. } => {
                self.received.insert(helper, entries(helper));
            }
            Op::Exit => {
                if let Some(received) = self.received.get_mut(&call.thread) {
                    *received = entries(call.thread).min(*received);
                }
            }
            Op::End => {
                self.received.remove(&call.thread);
            }
            _ => {}
        }
    }

    /// An accepted call, with the state before it.
    fn step_removal(&mut self, before: &State, op: Op) {
        if let Op::Remove { area } = op {
            let record = (before.area(area).clone(), before.blocks_of(area));
            self.removed.insert(area, record);
        }
    }

    /// Whether a thread received a scope from its starter.
    fn was_born_in(&self, state: &State, thread: u64, scope: u64) -> bool {
        let received = self.received.get(&thread).copied().unwrap_or(0);
        state.thread(thread).stack[..received].contains(&scope)
    }
}

/// How many of its row's conditions a call breaks at once, as far as each can be told alone.
fn faults(machine: &Machine, call: Call) -> usize {
    let state = &machine.state;
    let started = call.thread < THREADS && state.thread(call.thread).kind.is_some();
    let dead = |word: u64| !machine.is_live(word);
    let others = match call.op {
        Op::Start { kind } => vec![started, !(1..=3).contains(&kind)],
        Op::Make { area, size } => vec![
            !(FIRST_SCOPE..AREAS).contains(&area),
            area < AREAS && state.area(area).made,
            state.room_for(size).is_none(),
        ],
        Op::Remove { area } => {
            let made = is_scope(area) && area < AREAS && state.area(area).made;
            vec![!made, made && state.is_open(area)]
        }
        Op::Enter { area } => vec![
            area >= AREAS || !state.area(area).made,
            started && state.thread(call.thread).stack.len() == STACK_ENTRIES,
        ],
        Op::Store { object, target, .. } => vec![dead(object), target != NULL && dead(target)],
        Op::Load { object, .. } | Op::Read { object, .. } | Op::Write { object, .. } => {
            vec![dead(object)]
        }
        Op::StartHelper { kind, helper } => vec![
            helper >= THREADS || state.thread(helper).kind.is_some(),
            !(1..=3).contains(&kind),
        ],
        Op::End | Op::Exit | Op::Allocate { .. } => vec![],
    };
    let thread = match call.op {
        Op::Start { .. } => call.thread >= THREADS,
        _ => !started,
    };
    let all = others.into_iter().chain([thread]);
    all.filter(|&fault| fault).count()
}

/// The first way, in the order of `SPOILT`, in which a line is no frame.
fn fault_of(line: &[u8]) -> &'static str {
    let has = |wanted: fn(&u8) -> bool| line.iter().any(wanted);
    match line.len() {
        0 => "empty",
        _ if has(|&byte| byte > 0x7f) => "byte above 7f",
        _ if has(|&byte| byte == 0) => "NUL",
        _ if has(|&byte| byte == b'\r') => "carriage return",
        _ if has(|&byte| byte == b' ' || byte == b'\t') => "blank",
        _ if has(|&byte| (b'A'..=b'F').contains(&byte)) => "upper case",
        _ if has(|byte| !byte.is_ascii_hexdigit()) => "another byte",
        1..=39 => "short",
        40 => fault_of_digits(line),
        41..=65_536 => "long",
        65_537.. => "longer than 64 KiB",
    }
}

/// The op or an unused field of 40 digits.
fn fault_of_digits(line: &[u8]) -> &'static str {
    match &line[..2] {
        b"01" => "unused field of op 01",
        b"02" | b"05" => "unused field of op 02 or 05",
        b"03" | b"06" => "unused field of op 03 or 06",
        b"04" => "unused field of op 04",
        b"08" | b"0a" => "unused field of op 08 or 0a",
        b"0b" => "unused field of op 0b",
        b"0c" => "unused field of op 0c",
        _ => "op that does not exist",
    }
}
