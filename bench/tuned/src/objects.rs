//! Op 06: an object is allocated.

use crate::access::{get, part, put};
use crate::rights::Right;
use crate::state::{accepted, refused, select, Answer, State};

/// Up to so many words are cleared one by one.
const FEW: usize = 8;

#[inline(never)]
#[allow(clippy::too_many_arguments)]
pub fn allocate(
    st: &mut State,
    p: &mut [u64],
    s: &mut [u64],
    m: &mut [u64],
    w: &mut [u64],
    t: u64,
    slots: u64,
    data_words: u64,
) -> Answer {
    let rights = match st.caller(p, s, m, w, t) {
        Err(status) => return refused(status),
        Ok(rights) => rights,
    };
    let area = st.current_area(t);
    if !rights.have(Right::Allocate, area) {
        return refused(5);
    }
    let record = &mut st.areas[area];
    let room = u64::from(record.size - record.used);
    if room <= slots || room - slots <= data_words {
        return refused(12);
    }
    let words = 1 + slots as u32 + data_words as u32;
    let offset = record.used;
    let (at, bit) = (record.start + offset, record.bit + offset);
    let handle = record.generation << 20 | (area as u64) << 14 | u64::from(offset);
    record.used += words;
    mark(m, w, bit, words);
    let store = select(area, p, s);
    put(store, at as usize, data_words << 14 | slots);
    clear(part(store, at as usize + 1..(at + words) as usize));
    accepted(handle)
}

impl State {
    /// The area on top of a started thread's stack, or the heap.
    #[inline(always)]
    fn current_area(&self, t: u64) -> usize {
        let thread = &self.threads[t as usize & 15];
        match thread.len as usize {
            0 => 0,
            len => thread.entries[(len - 1) & 31] as usize & 63,
        }
    }
}

/// Of n bits of the start map the first is set and the others are cleared, of the written map all are cleared: a
/// word of both at a time, by one mask.
#[inline(always)]
fn mark(map: &mut [u64], written: &mut [u64], bit: u32, n: u32) {
    let (place, low) = (bit as usize / 64, bit % 64);
    let (word, other) = (get(map, place), get(written, place));
    if low + n <= 64 {
        let kept = !(u64::MAX >> (64 - n) << low);
        put(map, place, word & kept | 1 << low);
        put(written, place, other & kept);
        return;
    }
    let kept = !(u64::MAX << low);
    put(map, place, word & kept | 1 << low);
    put(written, place, other & kept);
    clear_bits(map, written, place + 1, n - (64 - low));
}

/// Clears n bits of both maps from a word's first one on.
#[inline(always)]
fn clear_bits(map: &mut [u64], written: &mut [u64], mut place: usize, mut n: u32) {
    while n >= 64 {
        put(map, place, 0);
        put(written, place, 0);
        place += 1;
        n -= 64;
    }
    if n > 0 {
        let kept = u64::MAX << n;
        put(map, place, get(map, place) & kept);
        put(written, place, get(written, place) & kept);
    }
}

#[inline(always)]
fn clear(words: &mut [u64]) {
    if words.len() > FEW {
        words.fill(0);
        return;
    }
    for word in words {
        *word = 0;
    }
}
