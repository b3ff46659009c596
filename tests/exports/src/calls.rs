//! A call of any exported function on a state and on lent buffers, from the second implementation's
//! description of it.

use reference::calls::{Call, Op};
use reference::texts::Text;

use crate::exports::*;
use crate::supplied::Supplied;
use crate::tables::Tables;

/// A call on a state: one of the ops, one of the two calls of the shown part, or a load, which is
/// lent no buffer.
#[derive(Clone, Copy, Debug, PartialEq, Eq)]
pub enum Request {
    Call(Call),
    ViewStatus { thread: u64, object: u64 },
    ViewPlace { thread: u64, object: u64 },
    LoadRights { text: Text },
}

impl Request {
    /// Whether the call, accepted or not, leaves the state as it is: ops 07 to 0a and the shown part.
    pub fn keeps_state(&self) -> bool {
        let op = match self {
            Request::Call(Call { op, .. }) => op,
            Request::ViewStatus { .. } | Request::ViewPlace { .. } => return true,
            Request::LoadRights { .. } => return false,
        };
        matches!(
            op,
            Op::Store { .. } | Op::Load { .. } | Op::Write { .. } | Op::Read { .. }
        )
    }
}

/// What a call answers: a status and a value, or a part of a store.
#[derive(Clone, Copy, Debug, PartialEq, Eq)]
pub enum Reply {
    Answer(Answer),
    View(View),
}

impl Reply {
    pub fn status(&self) -> u64 {
        match self {
            Reply::Answer(answer) => answer.status,
            Reply::View(view) => view.status,
        }
    }
}

/// Calls an exported function with a state's tables, the buffers and numbers.
macro_rules! call {
    ($function:ident, $state:ident, $supplied:ident, $($number:expr),*) => {{
        let [permanent, scratch, map, written] = $supplied.buffers();
        // SAFETY: the tables have their sizes and, but for a set-up, hold a state of set-up and calls,
        // in which the generation of a scope that is not open may be any up to the last; the buffers
        // are slices with their own lengths, apart from each other.
        unsafe {
            $function(
                $state.words.as_mut_ptr(),
                $state.bytes.as_mut_ptr(),
                permanent.as_mut_ptr(),
                permanent.len(),
                scratch.as_mut_ptr(),
                scratch.len(),
                map.as_mut_ptr(),
                map.len(),
                written.as_mut_ptr(),
                written.len(),
                $($number),*
            )
        }
    }};
}

/// A set-up by value.
pub fn set_up(supplied: &mut Supplied, heap: u64, immortal: u64) -> NewState {
    let [permanent, scratch, map, written] = supplied.buffers();
    // SAFETY: four slices with their own lengths, borrowed for writing, so that a write is seen.
    unsafe {
        scopes_set_up(
            permanent.as_mut_ptr(),
            permanent.len(),
            scratch.as_mut_ptr(),
            scratch.len(),
            map.as_mut_ptr(),
            map.len(),
            written.as_mut_ptr(),
            written.len(),
            heap,
            immortal,
        )
    }
}

/// A set-up in place; its status.
pub fn set_up_in(tables: &mut Tables, supplied: &mut Supplied, heap: u64, immortal: u64) -> u64 {
    call!(scopes_set_up_in_place, tables, supplied, heap, immortal)
}

pub fn call(state: &mut NewState, supplied: &mut Supplied, request: Request) -> Reply {
    match request {
        Request::Call(Call { thread, op }) => Reply::Answer(call_op(state, supplied, thread, op)),
        Request::ViewStatus { thread, object } => {
            Reply::Answer(call!(scopes_view_status, state, supplied, thread, object))
        }
        Request::ViewPlace { thread, object } => {
            Reply::View(call!(scopes_view_place, state, supplied, thread, object))
        }
        Request::LoadRights { text } => Reply::Answer(load_rights(state, text.bytes())),
    }
}

fn load_rights(state: &mut NewState, text: &[u8]) -> Answer {
    let (words, bytes) = (state.words.as_mut_ptr(), state.bytes.as_mut_ptr());
    // SAFETY: the tables as above; the text is a slice with its own length, apart from them. The words
    // are borrowed for writing, so that a write is seen.
    unsafe { scopes_load_rights(words, bytes, text.as_ptr(), text.len()) }
}

fn call_op(state: &mut NewState, supplied: &mut Supplied, t: u64, op: Op) -> Answer {
    match op {
        Op::Start { kind } => call!(scopes_start, state, supplied, t, kind),
        Op::End => call!(scopes_end, state, supplied, t),
        Op::Make { area, size } => call!(scopes_make, state, supplied, t, area, size),
        Op::Enter { area } => call!(scopes_enter, state, supplied, t, area),
        Op::Exit => call!(scopes_exit, state, supplied, t),
        Op::Allocate { slots, data } => call!(scopes_allocate, state, supplied, t, slots, data),
        Op::Store {
            object,
            slot,
            target,
        } => call!(scopes_store, state, supplied, t, object, slot, target),
        Op::Load { object, slot } => call!(scopes_load, state, supplied, t, object, slot),
        Op::Write {
            object,
            index,
            word,
        } => call!(scopes_write, state, supplied, t, object, index, word),
        Op::Read { object, index } => call!(scopes_read, state, supplied, t, object, index),
        Op::StartHelper { kind, helper } => {
            call!(scopes_start_helper, state, supplied, t, kind, helper)
        }
        Op::Remove { area } => call!(scopes_remove, state, supplied, t, area),
    }
}
