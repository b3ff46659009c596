//! Ops 07 and 08: references are stored and loaded.

use crate::access::{get, put};
use crate::rights::Right;
use crate::state::{accepted, refused, select, Answer, State, FIRST_SCOPE};

#[inline(never)]
#[allow(clippy::too_many_arguments)]
pub fn store(
    st: &State,
    p: &mut [u64],
    s: &mut [u64],
    m: &[u64],
    w: &[u64],
    t: u64,
    object: u64,
    slot: u64,
    target: u64,
) -> Answer {
    let (holder, rights) = match st.usable(p, s, m, w, t, object) {
        Err(status) => return refused(status),
        Ok(found) => found,
    };
    if slot >= u64::from(holder.slots) {
        return refused(14);
    }
    if target != 0 {
        let Some(found) = st.look_up(p, s, m, target) else {
            return refused(15);
        };
        if !rights.have(Right::Refer, found.area) {
            return refused(5);
        }
        if !st.may_hold(holder.area, found.area) {
            return refused(16);
        }
    }
    let at = holder.at + 1 + slot as u32;
    put(select(holder.area, p, s), at as usize, target);
    accepted(0)
}

impl State {
    /// The assignment rule by one look into a display, for areas that hold live objects.
    #[inline(always)]
    fn may_hold(&self, holder: usize, target: usize) -> bool {
        if target < FIRST_SCOPE {
            return true;
        }
        let depth = self.areas[target].depth;
        depth <= self.areas[holder].depth
            && self.displays[holder][(depth as usize).wrapping_sub(1) & 31] as usize == target
    }
}

#[inline(never)]
#[allow(clippy::too_many_arguments)]
pub fn load(
    st: &State,
    p: &[u64],
    s: &[u64],
    m: &[u64],
    w: &[u64],
    t: u64,
    object: u64,
    slot: u64,
) -> Answer {
    let (holder, rights) = match st.usable(p, s, m, w, t, object) {
        Err(status) => return refused(status),
        Ok(found) => found,
    };
    if slot >= u64::from(holder.slots) {
        return refused(14);
    }
    let at = holder.at + 1 + slot as u32;
    let word = get(select(holder.area, p, s), at as usize);
    if word != 0 {
        let Some(found) = st.look_up(p, s, m, word) else {
            return refused(15);
        };
        if !rights.have(Right::Refer, found.area) {
            return refused(5);
        }
    }
    accepted(word)
}
