//! Ops 09 and 0a, and the view: data words are written, read, and shown where they lie.

use crate::access::{get, put};
use crate::state::{accepted, refused, select, Answer, Object, State, View, FIRST_SCOPE};

impl Object {
    /// The place of its first data word in its store.
    #[inline(always)]
    fn data(&self) -> u32 {
        self.at + 1 + self.slots
    }

    /// The place of that word's bit in the written map.
    #[inline(always)]
    fn data_bit(&self) -> u32 {
        self.bit + 1 + self.slots
    }
}

#[inline(never)]
#[allow(clippy::too_many_arguments)]
pub fn write(
    st: &State,
    p: &mut [u64],
    s: &mut [u64],
    m: &[u64],
    w: &mut [u64],
    t: u64,
    object: u64,
    index: u64,
    word: u64,
) -> Answer {
    let object = match st.usable(p, s, m, w, t, object) {
        Err(status) => return refused(status),
        Ok((object, _)) => object,
    };
    if index >= u64::from(object.data_words) {
        return refused(14);
    }
    let at = object.data() + index as u32;
    put(select(object.area, p, s), at as usize, word);
    let bit = object.data_bit() + index as u32;
    let place = bit as usize / 64;
    put(w, place, get(w, place) | 1 << (bit % 64));
    accepted(0)
}

#[inline(never)]
#[allow(clippy::too_many_arguments)]
pub fn read(
    st: &State,
    p: &[u64],
    s: &[u64],
    m: &[u64],
    w: &[u64],
    t: u64,
    object: u64,
    index: u64,
) -> Answer {
    let object = match st.usable(p, s, m, w, t, object) {
        Err(status) => return refused(status),
        Ok((object, _)) => object,
    };
    if index >= u64::from(object.data_words) {
        return refused(14);
    }
    let bit = object.data_bit() + index as u32;
    if get(w, bit as usize / 64) >> (bit % 64) & 1 == 0 {
        return refused(19);
    }
    let at = object.data() + index as u32;
    accepted(get(select(object.area, p, s), at as usize))
}

#[inline(never)]
pub fn view(st: &State, p: &[u64], s: &[u64], m: &[u64], w: &[u64], t: u64, object: u64) -> View {
    match st.usable(p, s, m, w, t, object) {
        Err(status) => View {
            status,
            store: 0,
            from: 0,
            len: 0,
        },
        Ok((object, _)) => View {
            status: 0,
            store: u64::from(object.area >= FIRST_SCOPE),
            from: u64::from(object.data()),
            len: u64::from(object.data_words),
        },
    }
}
