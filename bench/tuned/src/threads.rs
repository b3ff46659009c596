//! Ops 01, 02 and 0b: threads start, with an empty stack or with their starter's, and end.

use crate::access::first;
use crate::rights::{Mask, Right};
use crate::state::{accepted, refused, Answer, State, Thread, THREADS};

pub fn start(
    st: &mut State,
    p: &[u64],
    s: &[u64],
    m: &[u64],
    w: &[u64],
    t: u64,
    kind: u64,
) -> Answer {
    if st.other_lengths(p, s, m, w) {
        return refused(1);
    }
    let rights = match st.new_thread(t, kind) {
        Err(status) => return refused(status),
        Ok(rights) => rights,
    };
    let thread = &mut st.threads[t as usize];
    thread.kind = kind as u8;
    thread.rights = rights;
    accepted(0)
}

#[inline(never)]
#[allow(clippy::too_many_arguments)]
pub fn start_helper(
    st: &mut State,
    p: &[u64],
    s: &[u64],
    m: &[u64],
    w: &[u64],
    t: u64,
    kind: u64,
    helper: u64,
) -> Answer {
    if let Err(status) = st.caller(p, s, m, w, t) {
        return refused(status);
    }
    let rights = match st.new_thread(helper, kind) {
        Err(status) => return refused(status),
        Ok(rights) => rights,
    };
    let starter = &st.threads[t as usize & 15];
    if !rights.have_for_all(Right::Enter, &starter.entries, starter.len) {
        return refused(5);
    }
    for &area in first(&starter.entries, starter.len as usize) {
        // Of heap and immortal memory too, whose counts nothing reads.
        let count = &mut st.areas[area as usize & 63].count;
        *count = count.wrapping_add(1);
    }
    st.threads[helper as usize & 15] = Thread {
        rights,
        kind: kind as u8,
        ..*starter
    };
    accepted(0)
}

impl State {
    /// Refusals 2, of a number above 15 alone, 3 and 4; yields the rights of the kind.
    #[inline(always)]
    fn new_thread(&self, t: u64, kind: u64) -> Result<Mask, u64> {
        if t >= THREADS {
            return Err(2);
        }
        if self.threads[t as usize].rights.is_started() {
            return Err(3);
        }
        if kind == 0 || kind > 3 {
            return Err(4);
        }
        Ok(self.rights[kind as usize - 1])
    }
}

#[inline(never)]
pub fn end(st: &mut State, p: &[u64], s: &[u64], m: &[u64], w: &[u64], t: u64) -> Answer {
    if let Err(status) = st.caller(p, s, m, w, t) {
        return refused(status);
    }
    let thread = &mut st.threads[t as usize & 15];
    if thread.len > 0 {
        return refused(11);
    }
    thread.rights = Mask::default();
    thread.kind = 0;
    accepted(0)
}
