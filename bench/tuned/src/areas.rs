//! Ops 04 and 05: areas are entered and left.

use crate::rights::Right;
use crate::state::{accepted, refused, Answer, State, AREAS, FIRST_SCOPE, STACK_ENTRIES};

const LAST_GENERATION: u64 = (1 << 44) - 1;

#[inline(never)]
pub fn enter(
    st: &mut State,
    p: &[u64],
    s: &[u64],
    m: &[u64],
    w: &[u64],
    t: u64,
    area: u64,
) -> Answer {
    match try_enter(st, p, s, m, w, t, area) {
        Ok(generation) => accepted(generation),
        Err(status) => refused(status),
    }
}

#[inline(always)]
fn try_enter(
    st: &mut State,
    p: &[u64],
    s: &[u64],
    m: &[u64],
    w: &[u64],
    t: u64,
    area: u64,
) -> Result<u64, u64> {
    let rights = st.caller(p, s, m, w, t)?;
    if area >= AREAS {
        return Err(6);
    }
    let area = area as usize;
    let is_scope = area >= FIRST_SCOPE;
    if is_scope && st.areas[area].size == 0 {
        return Err(6);
    }
    if !rights.have(Right::Enter, area) {
        return Err(5);
    }
    // The mask is without effect, and tells the compiler so.
    let t = t as usize & 15;
    let thread = &st.threads[t];
    let place = thread.len as usize;
    if place >= STACK_ENTRIES {
        return Err(9);
    }
    let innermost = if place == 0 {
        0
    } else {
        thread.inner[place - 1]
    };
    if is_scope {
        enter_scope(st, area, innermost)?;
    }
    let thread = &mut st.threads[t];
    thread.entries[place] = area as u8;
    thread.inner[place] = if is_scope { area as u8 } else { innermost };
    thread.len = place as u8 + 1;
    Ok(st.areas[area].generation)
}

/// Refusals 10 and 17; else one entry more, which opens a scope that has none.
#[inline(always)]
fn enter_scope(st: &mut State, area: usize, innermost: u8) -> Result<(), u64> {
    let parent = innermost as usize & 63;
    let depth = st.areas[parent].depth;
    let display = st.displays[parent];
    let scope = &mut st.areas[area];
    if scope.count > 0 {
        if scope.parent != innermost {
            return Err(10);
        }
        scope.count += 1;
        return Ok(());
    }
    if scope.generation >= LAST_GENERATION {
        return Err(17);
    }
    scope.generation += 1;
    scope.used = 0;
    scope.count = 1;
    scope.parent = innermost;
    scope.depth = depth + 1;
    st.displays[area] = display;
    st.displays[area][depth as usize & 31] = area as u8;
    Ok(())
}

#[inline(never)]
pub fn exit(st: &mut State, p: &[u64], s: &[u64], m: &[u64], w: &[u64], t: u64) -> Answer {
    if let Err(status) = st.caller(p, s, m, w, t) {
        return refused(status);
    }
    let thread = &mut st.threads[t as usize & 15];
    if thread.len == 0 {
        return refused(11);
    }
    thread.len -= 1;
    let area = thread.entries[thread.len as usize & 31] as usize & 63;
    if area < FIRST_SCOPE {
        return accepted(0);
    }
    let scope = &mut st.areas[area];
    scope.count -= 1;
    if scope.count == 0 {
        scope.parent = 0;
        scope.used = 0;
        scope.depth = 0;
    }
    accepted(u64::from(scope.count))
}
