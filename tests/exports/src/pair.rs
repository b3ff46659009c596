//! The exported functions and the second implementation side by side: each call goes to both, and
//! answer, tables and words are compared after it.

use reference::calls::{Call, Op};
use reference::memory::Memory;
use reference::state::{self, State};

use crate::blocks;
use crate::calls::{self, Reply, Request};
use crate::chooser::Seen;
use crate::exports::{Answer, NewState, View};
use crate::helpers;
use crate::supplied::Supplied;
use crate::tables::Tables;

/// Where a scope's generation stands in the tables: the fourth of the eight words of its area.
const GENERATION: usize = 3;
/// Where the rights table stands: the last 36 bytes.
const RIGHTS: usize = 3_072;

pub struct Pair {
    /// The proved core: its tables and what it is lent.
    given: NewState,
    supplied: Supplied,
    /// The second implementation.
    pub state: State,
    pub memory: Memory,
}

impl Pair {
    /// Set-up of both on the same words. A refused one leaves both with empty buffers. Yields its
    /// status beside them.
    pub fn set_up(heap: u64, immortal: u64, memory: Memory) -> Result<(u64, Pair), String> {
        let (answer, state) = state::set_up(heap, immortal, &memory);
        let request = format!("set-up {heap}, {immortal} on {:?}", memory.lengths());
        let given =
            set_up(heap, immortal, &memory).map_err(|words| format!("{request}: {words}"))?;
        let (status, expected) = (given.status, answer.status);
        if status != expected {
            return Err(format!("{request}: {status}, expected {expected}"));
        }
        let memory = if answer.is_accepted() {
            memory
        } else {
            Memory::zeroed(Default::default())
        };
        let pair = Pair {
            given,
            supplied: Supplied::new(&memory),
            state,
            memory,
        };
        pair.same_parts()
            .map_err(|words| format!("{request}: {words}"))?;
        Ok((status, pair))
    }

    /// What a choice of calls may look at.
    pub fn seen(&self) -> Seen<'_> {
        Seen {
            state: &self.state,
            memory: &self.memory,
        }
    }

    /// A call on the kept buffers.
    pub fn call(&mut self, request: Request) -> Result<Reply, String> {
        let before = self.given.clone();
        let given = calls::call(&mut self.given, &mut self.supplied, request);
        let expected = expected(&mut self.state, &mut self.memory, request);
        let difference = self.supplied.difference(&self.memory);
        self.compare(request, &before, given, expected, difference)
    }

    /// A call on other buffers, of other lengths, which are not kept. To a load they mean nothing.
    pub fn call_on(&mut self, other: &Memory, request: Request) -> Result<Reply, String> {
        let before = self.given.clone();
        let (mut supplied, mut memory) = (Supplied::new(other), other.clone());
        let given = calls::call(&mut self.given, &mut supplied, request);
        let expected = expected(&mut self.state, &mut memory, request);
        let difference = supplied.difference(&memory);
        self.compare(request, &before, given, expected, difference)
    }

    fn compare(
        &self,
        request: Request,
        before: &NewState,
        given: Reply,
        expected: Reply,
        difference: Option<String>,
    ) -> Result<Reply, String> {
        if given != expected {
            return Err(format!("{request:x?}: {given:?}, expected {expected:?}"));
        }
        let same = difference.map_or(Ok(()), Err);
        same.and_then(|()| self.check_tables(request, before, given.status()))
            .map_err(|words| format!("{request:x?}: {words}"))?;
        Ok(given)
    }

    /// The tables after a call with this status.
    fn check_tables(&self, request: Request, before: &NewState, status: u64) -> Result<(), String> {
        let keeps_state = status != 0 || request.keeps_state();
        if keeps_state && self.given != *before {
            return Err(format!("status {status}, but the state changed"));
        }
        if matches!(request, Request::LoadRights { .. }) && !self.same_but_rights(before) {
            return Err("more than the rights changed".to_string());
        }
        if status == 0 && !self.as_left(before, request) {
            return Err("not the tables that it leaves".to_string());
        }
        self.same_parts()
    }

    /// What every call leaves as the second implementation has it: the rights and the used bits.
    fn same_parts(&self) -> Result<(), String> {
        if !blocks::same_used(&self.given, &self.state) {
            return Err("the used bits are not those of the made scopes".to_string());
        }
        self.same_rights()
    }

    /// The tables have the second implementation's rights.
    fn same_rights(&self) -> Result<(), String> {
        let (given, expected) = (&self.given.bytes[RIGHTS..], self.state.rights.digits());
        if given == expected {
            return Ok(());
        }
        Err(format!("rights {given:?}, expected {expected:?}"))
    }

    /// Whether the tables are as before, the rights apart.
    fn same_but_rights(&self, before: &NewState) -> bool {
        self.given.words == before.words && self.given.bytes[..RIGHTS] == before.bytes[..RIGHTS]
    }

    /// Whether the tables are, to the last byte, those that an accepted start of a helper, make or
    /// remove leaves, if that is the call.
    fn as_left(&self, before: &NewState, request: Request) -> bool {
        let by_helper = helpers::tables_after(before, request);
        let after = by_helper.or_else(|| blocks::tables_after(before, request, &self.state));
        after.is_none_or(|after| self.given == after)
    }

    /// A word of a buffer that the host writes itself, on both sides.
    pub fn poke(&mut self, buffer: Buffer, place: u64, word: u64) {
        let place = place as usize;
        let (given, expected) = match buffer {
            Buffer::Permanent => (&mut self.supplied.permanent, &mut self.memory.permanent),
            Buffer::Scratch => (&mut self.supplied.scratch, &mut self.memory.scratch),
            Buffer::Map => (&mut self.supplied.map, &mut self.memory.start_map),
            Buffer::Written => (&mut self.supplied.written, &mut self.memory.written),
        };
        given.words_mut()[place] = word;
        expected[place] = word;
    }

    /// A state that no host may make: a scope that is not open gets a generation.
    pub fn set_generation(&mut self, scope: u64, generation: u64) {
        self.given.words[scope as usize * 8 + GENERATION] = generation;
        self.state.areas[scope as usize].generation = generation;
    }
}

/// A set-up in place of the exported functions, which gives what the one by value does, and writes
/// nothing but its tables.
fn set_up(heap: u64, immortal: u64, memory: &Memory) -> Result<NewState, String> {
    let (mut supplied, mut tables) = (Supplied::new(memory), Tables::painted());
    let status = calls::set_up_in(&mut tables, &mut supplied, heap, immortal);
    if !tables.intact() {
        return Err("bytes around the tables were written".to_string());
    }
    let given = tables.state(status);
    if given != calls::set_up(&mut supplied, heap, immortal) {
        return Err("the set-up by value gives another state".to_string());
    }
    supplied.difference(memory).map_or(Ok(given), Err)
}

#[derive(Clone, Copy, Debug)]
pub enum Buffer {
    Permanent,
    Scratch,
    Map,
    Written,
}

/// What the second implementation does.
fn expected(state: &mut State, memory: &mut Memory, request: Request) -> Reply {
    let answer = match request {
        Request::Call(call) => state.run(memory, call),
        Request::ViewStatus { thread, object } => state.view_status_of(memory, thread, object),
        Request::LoadRights { text } => state.load_rights(text.bytes()),
        Request::ViewPlace { thread, object } => {
            return Reply::View(expected_view(state, memory, thread, object))
        }
    };
    Reply::Answer(Answer {
        status: answer.status,
        value: answer.value,
    })
}

/// The shown part as numbers: the store, the first word, the length. The part of a refused call is
/// empty and has no place.
fn expected_view(state: &State, memory: &Memory, thread: u64, object: u64) -> View {
    let status = state.view_status_of(memory, thread, object).status;
    let view = state.view_of(memory, thread, object);
    let accepted = status == 0;
    let object = accepted.then(|| state.resolve(memory, object)).flatten();
    let permanent = memory.permanent.len() as u64;
    let first = object.map_or(0, |object| object.first_data());
    let in_scratch = object.is_some_and(|object| state::is_scope(object.area));
    View {
        status,
        store: u64::from(in_scratch),
        from: if in_scratch { first - permanent } else { first },
        len: view.len() as u64,
    }
}

/// Short for an op of a thread.
pub fn op(thread: u64, op: Op) -> Request {
    Request::Call(Call { thread, op })
}
