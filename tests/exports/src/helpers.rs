//! What the start of a helper leaves: the tables to the last byte, since no call shows the bytes above
//! the length of a stack, and the entries that nobody entered.

use reference::calls::{Call, Op};
use reference::state::{is_scope, THREADS};

use crate::calls::Request;
use crate::exports::NewState;

/// Where a scope's count stands in the tables: the fifth of the eight words of its area.
const COUNT: usize = 4;
/// Where the words of the threads begin: kind and length of the stack.
const THREADS_AT: usize = 512;
/// The rows of 32 bytes that thread 0 has, its entries and the innermost scopes beside them.
const ROWS: [usize; 2] = [0, 16];
const ROW_BYTES: usize = 32;

/// The tables that an accepted start of a helper leaves; of another call, none.
pub fn tables_after(before: &NewState, request: Request) -> Option<NewState> {
    let Request::Call(Call { thread, op }) = request else {
        return None;
    };
    let Op::StartHelper { kind, helper } = op else {
        return None;
    };
    let (starter, helper) = (thread as usize, helper as usize);
    let mut after = before.clone();
    for first in ROWS {
        let row = (first + starter) * ROW_BYTES;
        let copy = (first + helper) * ROW_BYTES;
        after.bytes.copy_within(row..row + ROW_BYTES, copy);
    }
    let length = before.words[THREADS_AT + starter * 2 + 1];
    after.words[THREADS_AT + helper * 2] = kind;
    after.words[THREADS_AT + helper * 2 + 1] = length;
    let entries = &before.bytes[starter * ROW_BYTES..][..length as usize];
    for &area in entries.iter().filter(|&&area| is_scope(area.into())) {
        after.words[usize::from(area) * 8 + COUNT] += 1;
    }
    Some(after)
}

/// For each thread the entries that it received from its starter and still has.
#[derive(Default)]
pub struct Received([Vec<u64>; THREADS as usize]);

impl Received {
    pub fn start(&mut self, helper: u64, entries: &[u64]) {
        self.0[helper as usize] = entries.to_vec();
    }

    pub fn has_any(&self, thread: u64) -> bool {
        !self.0[thread as usize].is_empty()
    }

    /// The area that a thread has left if it had received that entry; its stack has so many now.
    pub fn exit(&mut self, thread: u64, entries: usize) -> Option<u64> {
        let received = &mut self.0[thread as usize];
        if received.len() <= entries {
            return None;
        }
        received.pop()
    }
}
