//! Ops 03 and 0c: scopes are made of blocks of scratch, and removed.

use crate::blocks::BLOCK;
use crate::state::{accepted, refused, Answer, State, AREAS, FIRST_SCOPE};

#[inline(never)]
#[allow(clippy::too_many_arguments)]
pub fn make(
    st: &mut State,
    p: &[u64],
    s: &[u64],
    m: &[u64],
    w: &[u64],
    t: u64,
    area: u64,
    size: u64,
) -> Answer {
    if let Err(status) = st.caller(p, s, m, w, t) {
        return refused(status);
    }
    if !is_scope(area) {
        return refused(6);
    }
    let record = &mut st.areas[area as usize];
    if record.size > 0 {
        return refused(7);
    }
    let blocks = st.scratch / BLOCK;
    // Size 0 and one that all blocks do not hold, by one branch.
    if size.wrapping_sub(1) >= (blocks * BLOCK) as u64 {
        return refused(8);
    }
    let n = blocks_for(size as u32);
    let Some(first) = st.used_bits.lowest_run(blocks, n) else {
        return refused(8);
    };
    st.used_bits.flip(first, n);
    record.start = (first * BLOCK) as u32;
    record.bit = st.permanent as u32 + record.start;
    record.size = size as u32;
    accepted(0)
}

#[inline(never)]
pub fn remove(
    st: &mut State,
    p: &[u64],
    s: &[u64],
    m: &[u64],
    w: &[u64],
    t: u64,
    area: u64,
) -> Answer {
    if let Err(status) = st.caller(p, s, m, w, t) {
        return refused(status);
    }
    if !is_scope(area) {
        return refused(6);
    }
    let record = &mut st.areas[area as usize];
    if record.size == 0 {
        return refused(6);
    }
    if record.count > 0 {
        return refused(20);
    }
    let first = record.start as usize / BLOCK;
    st.used_bits.flip(first, blocks_for(record.size));
    record.start = 0;
    record.bit = 0;
    record.size = 0;
    accepted(0)
}

/// By one branch.
#[inline(always)]
fn is_scope(area: u64) -> bool {
    area.wrapping_sub(FIRST_SCOPE as u64) < AREAS - FIRST_SCOPE as u64
}

/// The blocks that hold so many words, at least one.
#[inline(always)]
fn blocks_for(size: u32) -> usize {
    (size as usize - 1) / BLOCK + 1
}
