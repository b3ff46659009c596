//! One list of calls from a seed: a set-up, random calls with words that the host writes between
//! them, every thread led out at the end, and a stack record.

use reference::blocks::BLOCK_WORDS;
use reference::calls::{Call, Op};
use reference::layout::Handle;
use reference::memory::{Lengths, Memory};
use reference::random::Random;
use reference::rights::{Kind, Right, DIGITS};
use reference::state::{is_scope, AREAS, FIRST_SCOPE, HEAP, IMMORTAL, LAST_GENERATION};
use reference::state::{MOST_WORDS, STACK_ENTRIES, THREADS};
use reference::texts::{self, Text};

use crate::calls::{Reply, Request};
use crate::chooser::{started, Chooser};
use crate::exports::View;
use crate::helpers::Received;
use crate::pair::{op, Pair};
use crate::records;
use crate::removals::Removals;
use crate::tally::{Note, Tally};

/// A list's outcome: the words say where the two sides differ.
pub fn run(seed: u64, count: u64, tally: &mut Tally) -> Result<(), String> {
    let mut random = Random::new(seed);
    let (heap, immortal, memory) = any_set_up(&mut random);
    let lengths = memory.lengths();
    let (status, pair) = Pair::set_up(heap, immortal, memory)?;
    tally.add("set_up", status);
    note_edges(heap, immortal, lengths, tally);
    tally.note(status == 1, "a list after a refused set-up");
    records::run(&mut random, 150, tally)?;
    let mut list = List {
        pair,
        chooser: Chooser::new(random),
        given: Vec::new(),
        received: Received::default(),
        removals: Removals::default(),
        tally,
    };
    for number in 0..count {
        list.step()
            .map_err(|words| format!("call {number}: {words}"))?;
    }
    list.lead_out()
        .map_err(|words| format!("at the end: {words}"))
}

/// The number of lists that failed; the first of them is explained.
pub fn run_all(first: u64, lists: u64, count: u64, tally: &mut Tally) -> u64 {
    let mut failed = 0;
    for seed in first..first + lists {
        let Err(words) = run(seed, count, tally) else {
            continue;
        };
        if failed == 0 {
            println!("seed {seed}, {count} calls: {words}");
        }
        failed += 1;
    }
    failed
}

/// Sizes and lent words of any contents; about one in eight is refused.
fn any_set_up(random: &mut Random) -> (u64, u64, Memory) {
    let most = match random.below(30) {
        0 => 8_192,
        1 => 4,
        _ => 200,
    };
    let (heap, immortal) = (random.below(most + 1), random.below(most + 1));
    let mut lengths = Lengths::with_maps(heap + immortal, random.below(2 * most + 1));
    let (mut h, mut i) = (heap, immortal);
    if random.percent(15) {
        match random.below(12) {
            0 => lengths.permanent += 1,
            1 => lengths.start_map += 1,
            2 => lengths.start_map = lengths.start_map.saturating_sub(1),
            3 => lengths.written += 1,
            4 => lengths.written = lengths.written.saturating_sub(1),
            5 => {
                lengths.start_map += 1;
                lengths.written += 1;
            }
            6 => lengths = Lengths::with_maps(lengths.permanent, MOST_WORDS + 1),
            7 => (h, i, lengths) = whole_store(random, MOST_WORDS + 1, lengths.scratch),
            8 => (h, i, lengths) = whole_store(random, MOST_WORDS, MOST_WORDS),
            9 => h = h.wrapping_sub(1 + random.below(3)),
            10 => i = random.word(),
            _ => (h, i) = (u64::MAX, lengths.permanent + 1),
        }
    }
    (h, i, any_contents(random, lengths))
}

/// Heap and immortal memory that fill a permanent store, beside a scratch store.
fn whole_store(random: &mut Random, permanent: u64, scratch: u64) -> (u64, u64, Lengths) {
    let heap = random.below(permanent + 1);
    let lengths = Lengths::with_maps(permanent, scratch);
    (heap, permanent - heap, lengths)
}

/// Notes the set-ups in which one length stands at the edge and nothing else is wrong.
fn note_edges(heap: u64, immortal: u64, lengths: Lengths, tally: &mut Tally) {
    let Lengths {
        permanent,
        scratch,
        start_map,
        written,
    } = lengths;
    if heap.checked_add(immortal) != Some(permanent) {
        return;
    }
    let fitting = Lengths::with_maps(permanent, scratch).start_map;
    if written == fitting {
        tally.note(start_map + 1 == fitting, "a start map one word short");
        tally.note(start_map == fitting + 1, "a start map one word long");
    }
    if start_map == fitting {
        tally.note(written + 1 == fitting, "a written map one word short");
        tally.note(written == fitting + 1, "a written map one word long");
    }
    if (start_map, written) == (fitting, fitting) {
        let most = (permanent, scratch) == (MOST_WORDS, MOST_WORDS);
        tally.note(most, "stores of 16,384 words");
        let long = permanent == MOST_WORDS + 1 && scratch <= MOST_WORDS;
        tally.note(long, "a permanent store of 16,385 words");
        let long = permanent <= MOST_WORDS && scratch == MOST_WORDS + 1;
        tally.note(long, "a scratch store of 16,385 words");
    }
}

fn any_contents(random: &mut Random, lengths: Lengths) -> Memory {
    let mut memory = Memory::zeroed(lengths);
    let stores = memory.permanent.iter_mut().chain(&mut memory.scratch);
    let maps = memory.start_map.iter_mut().chain(&mut memory.written);
    for word in stores.chain(maps) {
        *word = random.word() >> random.below(64);
    }
    memory
}

struct List<'t> {
    pair: Pair,
    chooser: Chooser,
    /// Every handle that an allocation gave.
    given: Vec<u64>,
    /// The entries that helpers received.
    received: Received,
    /// What was removed.
    removals: Removals,
    tally: &'t mut Tally,
}

impl List<'_> {
    fn step(&mut self) -> Result<(), String> {
        self.host_writes();
        let request = self.chooser.request(self.pair.seen());
        if self.chooser.random.percent(4) {
            self.call_on_others(request)?;
        }
        self.call(request)
    }

    /// The call on buffers of other lengths, before it is made on those that are kept.
    fn call_on_others(&mut self, request: Request) -> Result<(), String> {
        let other = self.chooser.other_lengths(&self.pair.memory);
        let reply = self.pair.call_on(&other, request)?;
        self.tally.add_reply(request, reply);
        let loaded = matches!(request, Request::LoadRights { .. }) && reply.status() == 0;
        let (given, kept) = (other.written.len(), self.pair.memory.written.len());
        let refused = reply.status() == 1;
        let notes = [
            (loaded, "a load beside buffers of other lengths"),
            (
                refused && given + 1 == kept,
                "a call with a written map one word short",
            ),
            (
                refused && given == kept + 1,
                "a call with a written map one word long",
            ),
        ];
        self.note_all(&notes);
        Ok(())
    }

    fn note_all(&mut self, notes: &[Note]) {
        for &(happened, situation) in notes {
            self.tally.note(happened, situation);
        }
    }

    /// What no call does: words of the buffers, and generations.
    fn host_writes(&mut self) {
        if self.chooser.random.percent(20) {
            for (buffer, place, word) in self.chooser.pokes(self.pair.seen()) {
                self.pair.poke(buffer, place, word);
            }
        }
        if self.chooser.random.percent(1) {
            if let Some((scope, generation)) = self.chooser.generation(&self.pair.state) {
                self.pair.set_generation(scope, generation);
            }
        }
    }

    fn call(&mut self, request: Request) -> Result<(), String> {
        let reply = self.pair.call(request)?;
        self.tally.add_reply(request, reply);
        self.look_at(request, reply);
        Ok(())
    }

    /// Remembers handles, and notes what is worth it.
    fn look_at(&mut self, request: Request, reply: Reply) {
        let status = reply.status();
        match (request, reply) {
            (Request::Call(call), Reply::Answer(answer)) if status == 0 => {
                self.look_at_accepted(call, answer.value);
            }
            (Request::Call(call), _) => self.look_at_refused(call, status),
            (Request::LoadRights { text }, _) => self.look_at_load(text, status),
            (_, Reply::View(view)) => self.look_at_view(view),
            _ => {}
        }
    }

    fn look_at_view(&mut self, view: View) {
        let memory = &self.pair.memory;
        let first = view.from + view.store * memory.lengths().permanent;
        let unmarked = (first..first + view.len).any(|number| !memory.is_written(number));
        let situation = "a view of words that are not marked as written";
        self.tally.note(unmarked, situation);
    }

    fn look_at_accepted(&mut self, call: Call, value: u64) {
        let ordinary = self.kind(call.thread) == Some(Kind::Ordinary);
        match call.op {
            Op::Allocate { .. } => {
                self.chooser.remember(value);
                self.given.push(value);
                let immortal = Handle::unpack(value).area == IMMORTAL;
                let situation = "an ordinary thread allocates in immortal memory";
                self.tally.note(ordinary && immortal, situation);
            }
            Op::Enter { area } => {
                let last = value == LAST_GENERATION;
                self.tally.note(last, "a scope at the last generation");
                let situation = "an ordinary thread enters a scope";
                self.tally.note(ordinary && is_scope(area), situation);
            }
            Op::Write { object, .. } => {
                let forged = !self.given.contains(&object);
                let situation = "a handle that no allocation gave is accepted";
                self.tally.note(forged, situation);
            }
            Op::Read { .. } => {
                let situation = "a 0 that is marked as written is read";
                self.tally.note(value == 0, situation);
            }
            Op::StartHelper { kind, helper } => self.look_at_helper(call.thread, kind, helper),
            Op::Exit => self.look_at_exit(call.thread, value),
            Op::Make { area, size } => {
                let notes = self.removals.make(&self.pair.state, area, size);
                self.note_all(&notes);
            }
            Op::Remove { area } => {
                let notes = self.removals.remove(&self.pair.state, call.thread, area);
                self.note_all(&notes);
            }
            _ => {}
        }
    }

    fn look_at_helper(&mut self, starter: u64, kind: u64, helper: u64) {
        let stack = &self.pair.state.thread(starter).stack;
        let in_scope = stack.iter().any(|&area| is_scope(area));
        let heapless = stack.is_empty() && !self.may_enter(kind, HEAP);
        let notes = [
            (stack.len() == STACK_ENTRIES, "a helper receives 32 entries"),
            (
                heapless,
                "a helper that may not enter the heap, from an empty stack",
            ),
            (kind == 1 && in_scope, "an ordinary helper in a scope"),
            (self.received.has_any(starter), "a helper starts a helper"),
        ];
        self.received.start(helper, stack);
        self.note_all(&notes);
    }

    fn look_at_exit(&mut self, thread: u64, left: u64) {
        let entries = self.pair.state.thread(thread).stack.len();
        let area = self.received.exit(thread, entries);
        let emptied = left == 0 && area.is_some_and(is_scope);
        let situation = "the last entry of a scope is one that a helper received";
        self.tally.note(emptied, situation);
    }

    fn look_at_refused(&mut self, call: Call, status: u64) {
        if let Op::StartHelper { kind, helper } = call.op {
            return self.look_at_refused_helper(call.thread, kind, helper, status);
        }
        let notes = self.removals.refused(&self.pair.state, call, status);
        self.note_all(&notes);
        let real_time = self.kind(call.thread) == Some(Kind::RealTime);
        let situation = "a real-time thread lacks a right";
        self.tally.note(status == 5 && real_time, situation);
    }

    fn look_at_refused_helper(&mut self, starter: u64, kind: u64, helper: u64, status: u64) {
        if self.kind(starter).is_none() {
            return;
        }
        let state = &self.pair.state;
        let full = state.thread(starter).stack.len() == STACK_ENTRIES;
        let below = self.may_enter(kind, state.current_area(starter));
        let notes = [
            (status == 5 && full, "a full stack refuses a helper"),
            (
                status == 5 && below,
                "an entry below the top alone refuses a helper",
            ),
            (status == 2, "a helper's number above 15"),
            (
                status == 3 && helper == starter,
                "a helper that is its own starter",
            ),
        ];
        self.note_all(&notes);
    }

    fn may_enter(&self, kind: u64, area: u64) -> bool {
        let rights = &self.pair.state.rights;
        Kind::from_number(kind).is_some_and(|kind| rights.has_right(kind, area, Right::Enter))
    }

    fn kind(&self, thread: u64) -> Option<Kind> {
        self.pair.state.threads.get(thread as usize)?.kind
    }

    fn look_at_load(&mut self, text: Text, status: u64) {
        let seen = self.pair.seen();
        let objects = self.chooser.known().iter().any(|&word| seen.is_live(word));
        let running = started(seen.state);
        let text = text.bytes();
        let digits = text.iter().all(|digit| b"01".contains(digit));
        let line_feed = text.len() == DIGITS + 1 && text.ends_with(b"\n");
        let broken = "a text that breaks the rules while a thread is started";
        let notes = [
            (status == 0 && objects, "a load while objects are alive"),
            (digits && text.len() == DIGITS - 1, "a text one digit short"),
            (digits && text.len() == DIGITS + 1, "a text one digit long"),
            (line_feed, "a text with a line feed behind it"),
            (status == 23 && !running.is_empty(), broken),
            (
                status == 24 && running == [15],
                "a load refused for thread 15 alone",
            ),
        ];
        self.note_all(&notes);
    }

    /// Shows what the calls left: every known object, every stack, taken off entry by entry, and every
    /// scope, taken down. A table can be loaded then.
    fn lead_out(&mut self) -> Result<(), String> {
        for thread in 0..THREADS {
            for object in self.chooser.known().to_vec() {
                self.call(Request::ViewPlace { thread, object })?;
            }
            for _ in 0..33 {
                self.call(op(thread, Op::Exit))?;
            }
            self.call(op(thread, Op::End))?;
        }
        self.take_down()?;
        let text = texts::table(&mut self.chooser.random);
        self.call(Request::LoadRights { text })
    }

    /// Every scope is removed; one then gets all blocks, and no word more.
    fn take_down(&mut self) -> Result<(), String> {
        self.call(op(0, Op::Start { kind: 2 }))?;
        for area in 0..AREAS {
            self.call(op(0, Op::Remove { area }))?;
        }
        let words = self.pair.state.used_blocks.len() as u64 * BLOCK_WORDS;
        for size in [words + 1, words] {
            let area = FIRST_SCOPE;
            self.call(op(0, Op::Make { area, size }))?;
        }
        self.call(op(0, Op::End))
    }
}
