//! The core in plain safe Rust: a state of records in place, lent as `&mut State`, with the same checks in
//! the same order. The innermost scope stands beside each stack entry, so that every call takes
//! constant time here too, but for the start of a helper, which goes over its starter's stack, and for a
//! scope that is made or removed, which goes over used bits.
//!
//! It is compiled twice: as the compiler thinks best, and with the inner functions forced in line.

const LAST_GENERATION: u64 = (1 << 44) - 1;
/// Words of a block of scratch.
const BLOCK: u64 = 16;

#[derive(Clone, Copy, Debug, PartialEq, Eq)]
pub struct Answer {
    pub status: u64,
    pub value: u64,
}

/// Where an object's data words lie: in the permanent (0) or the scratch store (1), from a word on.
#[derive(Clone, Copy, Debug, PartialEq, Eq)]
pub struct View {
    pub status: u64,
    pub store: u64,
    pub from: u64,
    pub len: u64,
}

#[derive(Clone, Copy)]
pub struct Area {
    pub start: u64,
    pub size: u64,
    pub used: u64,
    pub generation: u64,
    pub count: u64,
    pub parent: u8,
    pub depth: u8,
    /// The display: ancestors, outermost first, itself last.
    pub display: [u8; 32],
}

#[derive(Clone, Copy)]
pub struct Thread {
    pub kind: u64,
    pub len: usize,
    pub entries: [u8; 32],
    /// Beside each entry, the innermost scope as of it.
    pub inner: [u8; 32],
}

#[derive(Clone)]
#[repr(align(64))]
pub struct State {
    pub areas: [Area; 64],
    pub threads: [Thread; 16],
    pub permanent: usize,
    pub scratch: usize,
    pub map: usize,
    /// Bit k is 1 where block k of scratch is some made scope's.
    pub used_bits: [u64; 16],
    pub rights: Rights,
}

/// For each kind and class of areas the four rights.
type Rights = [[[bool; 4]; 3]; 3];

#[derive(Clone, Copy)]
enum Right {
    Enter,
    Allocate,
    Use,
    Refer,
}

/// The rights before the first load.
const BUILT_IN: Rights = [
    [[true; 4], [false, false, true, true], [false; 4]],
    [[true; 4], [true; 4], [true; 4]],
    [[false; 4], [true; 4], [true; 4]],
];

fn refused(status: u64) -> Answer {
    Answer { status, value: 0 }
}

fn accepted(value: u64) -> Answer {
    Answer { status: 0, value }
}

fn answer(outcome: Result<u64, u64>) -> Answer {
    outcome.map_or_else(refused, accepted)
}

/// A live object: its area, the place of its header in its store, its slots and its data words.
struct Object {
    area: usize,
    at: usize,
    slots: u64,
    data_words: u64,
}

impl State {
    /// An accepted set-up.
    pub fn set_up(permanent: usize, scratch: usize, map: usize, heap: u64) -> State {
        let closed = Area {
            start: 0,
            size: 0,
            used: 0,
            generation: 0,
            count: 0,
            parent: 0,
            depth: 0,
            display: [0; 32],
        };
        let thread = Thread {
            kind: 0,
            len: 0,
            entries: [0; 32],
            inner: [0; 32],
        };
        let mut areas = [closed; 64];
        areas[0] = Area {
            size: heap,
            generation: 1,
            ..closed
        };
        areas[1] = Area {
            start: heap,
            size: permanent as u64 - heap,
            generation: 1,
            ..closed
        };
        State {
            areas,
            threads: [thread; 16],
            permanent,
            scratch,
            map,
            used_bits: [0; 16],
            rights: BUILT_IN,
        }
    }

    fn allowed(&self, kind: u64, area: usize, right: Right) -> bool {
        self.rights[kind as usize - 1][area.min(2)][right as usize]
    }

    fn fits(&self, permanent: &[u64], scratch: &[u64], map: &[u64], written: &[u64]) -> bool {
        permanent.len() == self.permanent
            && scratch.len() == self.scratch
            && map.len() == self.map
            && written.len() == self.map
    }

    /// Refusals 1 and 2.
    #[cfg_attr(feature = "in_line", inline(always))]
    fn caller(
        &self,
        permanent: &[u64],
        scratch: &[u64],
        map: &[u64],
        written: &[u64],
        t: u64,
    ) -> Result<&Thread, u64> {
        if !self.fits(permanent, scratch, map, written) {
            return Err(1);
        }
        match self.threads.get(t as usize) {
            Some(thread) if thread.kind != 0 => Ok(thread),
            _ => Err(2),
        }
    }

    /// Refusals 2, of a number above 15 alone, 3 and 4.
    #[cfg_attr(feature = "in_line", inline(always))]
    fn new_thread(&self, t: u64, kind: u64) -> Result<(), u64> {
        match self.threads.get(t as usize) {
            None => Err(2),
            Some(thread) if thread.kind != 0 => Err(3),
            Some(_) if kind == 0 || kind > 3 => Err(4),
            Some(_) => Ok(()),
        }
    }

    fn is_made(&self, area: usize) -> bool {
        area < 2 || self.areas[area].size > 0
    }

    #[cfg_attr(feature = "in_line", inline(always))]
    fn look_up(
        &self,
        permanent: &[u64],
        scratch: &[u64],
        map: &[u64],
        handle: u64,
    ) -> Option<Object> {
        let area = (handle >> 14 & 0x3f) as usize;
        let offset = handle & 0x3fff;
        let record = &self.areas[area];
        if handle >> 20 != record.generation || offset >= record.used {
            return None;
        }
        let at = (record.start + offset) as usize;
        if !has_bit(map, bit_of(permanent, area, at)) {
            return None;
        }
        let header = if area < 2 { permanent[at] } else { scratch[at] };
        let (slots, data_words) = (header & 0x3fff, header >> 14 & 0x3fff);
        let whole = offset + 1 + slots + data_words <= record.used;
        whole.then_some(Object {
            area,
            at,
            slots,
            data_words,
        })
    }

    /// Refusals 1, 2, 13 and 5. Yields the thread's kind beside the object.
    #[cfg_attr(feature = "in_line", inline(always))]
    fn usable(
        &self,
        permanent: &[u64],
        scratch: &[u64],
        map: &[u64],
        written: &[u64],
        t: u64,
        object: u64,
    ) -> Result<(Object, u64), u64> {
        let kind = self.caller(permanent, scratch, map, written, t)?.kind;
        let object = self.look_up(permanent, scratch, map, object).ok_or(13u64)?;
        if !self.allowed(kind, object.area, Right::Use) {
            return Err(5);
        }
        Ok((object, kind))
    }

    /// Refusals 15 and 5; yields the area of a target that is not null.
    #[cfg_attr(feature = "in_line", inline(always))]
    fn target(
        &self,
        permanent: &[u64],
        scratch: &[u64],
        map: &[u64],
        kind: u64,
        target: u64,
    ) -> Result<Option<usize>, u64> {
        if target == 0 {
            return Ok(None);
        }
        let found = self.look_up(permanent, scratch, map, target).ok_or(15u64)?;
        if !self.allowed(kind, found.area, Right::Refer) {
            return Err(5);
        }
        Ok(Some(found.area))
    }
}

/// The place of a word's bit in either map.
#[cfg_attr(feature = "in_line", inline(always))]
fn bit_of(permanent: &[u64], area: usize, at: usize) -> usize {
    if area < 2 {
        at
    } else {
        permanent.len() + at
    }
}

#[cfg_attr(feature = "in_line", inline(always))]
fn has_bit(map: &[u64], bit: usize) -> bool {
    map[bit / 64] >> (bit % 64) & 1 != 0
}

// ---- a load and op 01, which are not measured

pub fn load_rights(st: &mut State, text: &[u8]) -> Answer {
    let Some(rights) = rights_of(text) else {
        return refused(23);
    };
    if st.threads.iter().any(|thread| thread.kind != 0) {
        return refused(24);
    }
    st.rights = rights;
    accepted(0)
}

/// 36 digits, each 0 or 1, the second of four 1 only where the third is.
fn rights_of(text: &[u8]) -> Option<Rights> {
    let text: &[u8; 36] = text.try_into().ok()?;
    let mut rights = BUILT_IN;
    let places = rights.iter_mut().flatten().flatten();
    for (place, digit) in places.zip(text) {
        *place = match digit {
            b'0' => false,
            b'1' => true,
            _ => return None,
        };
    }
    let mut classes = rights.iter().flatten();
    let loadable = classes.all(|&[_, allocates, uses, _]| uses || !allocates);
    loadable.then_some(rights)
}

pub fn start(
    st: &mut State,
    p: &[u64],
    s: &[u64],
    m: &[u64],
    w: &[u64],
    t: u64,
    kind: u64,
) -> Answer {
    if !st.fits(p, s, m, w) {
        return refused(1);
    }
    if let Err(status) = st.new_thread(t, kind) {
        return refused(status);
    }
    st.threads[t as usize].kind = kind;
    accepted(0)
}

// ---- ops 03 and 0c

#[inline(never)]
#[allow(clippy::too_many_arguments)]
pub fn make(
    st: &mut State,
    p: &[u64],
    s: &[u64],
    m: &[u64],
    w: &[u64],
    t: u64,
    area: u64,
    size: u64,
) -> Answer {
    if let Err(status) = st.caller(p, s, m, w, t) {
        return refused(status);
    }
    if !(2..64).contains(&area) {
        return refused(6);
    }
    if st.is_made(area as usize) {
        return refused(7);
    }
    if size == 0 {
        return refused(8);
    }
    let (blocks, n) = (st.scratch / BLOCK as usize, blocks_for(size));
    let Some(first) = lowest_run(&st.used_bits, blocks, n) else {
        return refused(8);
    };
    set_bits(&mut st.used_bits, first, n);
    let scope = &mut st.areas[area as usize];
    scope.start = first as u64 * BLOCK;
    scope.size = size;
    accepted(0)
}

#[inline(never)]
pub fn remove(
    st: &mut State,
    p: &[u64],
    s: &[u64],
    m: &[u64],
    w: &[u64],
    t: u64,
    area: u64,
) -> Answer {
    if let Err(status) = st.caller(p, s, m, w, t) {
        return refused(status);
    }
    if !(2..64).contains(&area) || !st.is_made(area as usize) {
        return refused(6);
    }
    let scope = &mut st.areas[area as usize];
    if scope.count > 0 {
        return refused(20);
    }
    let (first, n) = ((scope.start / BLOCK) as usize, blocks_for(scope.size));
    clear_bits(&mut st.used_bits, first, n);
    scope.start = 0;
    scope.size = 0;
    accepted(0)
}

/// The blocks that hold so many words.
#[cfg_attr(feature = "in_line", inline(always))]
fn blocks_for(size: u64) -> usize {
    size.div_ceil(BLOCK) as usize
}

/// The lowest start of n adjacent clear bits among the first ones: the jumping search of source 000, Figure 6, which
/// looks at a window from its end down.
#[cfg_attr(feature = "in_line", inline(always))]
fn lowest_run(map: &[u64], bits: usize, n: usize) -> Option<usize> {
    let mut start = 0;
    while n <= bits - start {
        let mut window = (start..start + n).rev();
        match window.find(|&bit| has_bit(map, bit)) {
            None => return Some(start),
            Some(used) => start = used + 1,
        }
    }
    None
}

// ---- ops 04 and 05

#[inline(never)]
pub fn enter(
    st: &mut State,
    p: &[u64],
    s: &[u64],
    m: &[u64],
    w: &[u64],
    t: u64,
    area: u64,
) -> Answer {
    answer(try_enter(st, p, s, m, w, t, area))
}

#[cfg_attr(feature = "in_line", inline(always))]
fn try_enter(
    st: &mut State,
    p: &[u64],
    s: &[u64],
    m: &[u64],
    w: &[u64],
    t: u64,
    area: u64,
) -> Result<u64, u64> {
    let thread = st.caller(p, s, m, w, t)?;
    if area >= 64 || !st.is_made(area as usize) {
        return Err(6);
    }
    let area = area as usize;
    if !st.allowed(thread.kind, area, Right::Enter) {
        return Err(5);
    }
    if thread.len >= 32 {
        return Err(9);
    }
    let place = thread.len;
    let innermost = if place == 0 {
        0
    } else {
        thread.inner[place - 1]
    };
    if area >= 2 {
        enter_scope(st, area, innermost)?;
    }
    let thread = &mut st.threads[t as usize];
    thread.entries[place] = area as u8;
    thread.inner[place] = if area >= 2 { area as u8 } else { innermost };
    thread.len = place + 1;
    Ok(st.areas[area].generation)
}

#[cfg_attr(feature = "in_line", inline(always))]
fn enter_scope(st: &mut State, area: usize, innermost: u8) -> Result<(), u64> {
    if st.areas[area].count > 0 {
        if st.areas[area].parent != innermost {
            return Err(10);
        }
        st.areas[area].count += 1;
        return Ok(());
    }
    if st.areas[area].generation >= LAST_GENERATION {
        return Err(17);
    }
    let Area { display, depth, .. } = st.areas[innermost as usize];
    let scope = &mut st.areas[area];
    scope.display = display;
    scope.display[depth as usize] = area as u8;
    scope.depth = depth + 1;
    scope.parent = innermost;
    scope.generation += 1;
    scope.used = 0;
    scope.count = 1;
    Ok(())
}

#[inline(never)]
pub fn exit(st: &mut State, p: &[u64], s: &[u64], m: &[u64], w: &[u64], t: u64) -> Answer {
    let len = match st.caller(p, s, m, w, t) {
        Err(status) => return refused(status),
        Ok(thread) => thread.len,
    };
    if len == 0 {
        return refused(11);
    }
    let thread = &mut st.threads[t as usize];
    thread.len = len - 1;
    let area = thread.entries[len - 1] as usize;
    if area < 2 {
        return accepted(0);
    }
    let scope = &mut st.areas[area];
    scope.count -= 1;
    if scope.count == 0 {
        scope.parent = 0;
        scope.used = 0;
        scope.depth = 0;
    }
    accepted(scope.count)
}

// ---- ops 02 and 0b

#[inline(never)]
pub fn end(st: &mut State, p: &[u64], s: &[u64], m: &[u64], w: &[u64], t: u64) -> Answer {
    match st.caller(p, s, m, w, t) {
        Err(status) => return refused(status),
        Ok(thread) if thread.len > 0 => return refused(11),
        Ok(_) => {}
    }
    st.threads[t as usize].kind = 0;
    accepted(0)
}

#[inline(never)]
#[allow(clippy::too_many_arguments)]
pub fn start_helper(
    st: &mut State,
    p: &[u64],
    s: &[u64],
    m: &[u64],
    w: &[u64],
    t: u64,
    kind: u64,
    helper: u64,
) -> Answer {
    let starter = match st.caller(p, s, m, w, t) {
        Err(status) => return refused(status),
        Ok(thread) => *thread,
    };
    if let Err(status) = st.new_thread(helper, kind) {
        return refused(status);
    }
    let stack = &starter.entries[..starter.len];
    let allowed = |&area: &u8| st.allowed(kind, area as usize, Right::Enter);
    if !stack.iter().all(allowed) {
        return refused(5);
    }
    for &scope in stack.iter().filter(|&&area| area >= 2) {
        st.areas[scope as usize].count += 1;
    }
    st.threads[helper as usize] = Thread { kind, ..starter };
    accepted(0)
}

// ---- op 06

#[inline(never)]
#[allow(clippy::too_many_arguments)]
pub fn allocate(
    st: &mut State,
    p: &mut [u64],
    s: &mut [u64],
    m: &mut [u64],
    w: &mut [u64],
    t: u64,
    slots: u64,
    data_words: u64,
) -> Answer {
    let thread = match st.caller(p, s, m, w, t) {
        Err(status) => return refused(status),
        Ok(thread) => thread,
    };
    let area = match thread.len {
        0 => 0,
        len => thread.entries[len - 1] as usize,
    };
    if !st.allowed(thread.kind, area, Right::Allocate) {
        return refused(5);
    }
    let record = &mut st.areas[area];
    let room = record.size - record.used;
    if room <= slots || room - slots <= data_words {
        return refused(12);
    }
    let words = 1 + slots + data_words;
    let at = (record.start + record.used) as usize;
    let bit = bit_of(p, area, at);
    m[bit / 64] |= 1 << (bit % 64);
    clear_bits(m, bit + 1, words as usize - 1);
    clear_bits(w, bit, words as usize);
    let store = if area < 2 { p } else { s };
    store[at] = data_words << 14 | slots;
    store[at + 1..at + words as usize].fill(0);
    let handle = record.generation << 20 | (area as u64) << 14 | record.used;
    record.used += words;
    accepted(handle)
}

#[cfg_attr(feature = "in_line", inline(always))]
fn set_bits(map: &mut [u64], w: usize, n: usize) {
    change_bits(map, w, n, |word, ones| word | ones);
}

#[cfg_attr(feature = "in_line", inline(always))]
fn clear_bits(map: &mut [u64], w: usize, n: usize) {
    change_bits(map, w, n, |word, ones| word & !ones);
}

/// Changes the n bits from bit w on, a word of the map at a time, by a mask of ones.
#[cfg_attr(feature = "in_line", inline(always))]
fn change_bits(map: &mut [u64], w: usize, n: usize, changed: impl Fn(u64, u64) -> u64) {
    let end = w + n;
    let mut at = w;
    while at < end {
        let low = at % 64;
        let count = (64 - low).min(end - at);
        let ones = u64::MAX >> (64 - count);
        let word = &mut map[at / 64];
        *word = changed(*word, ones << low);
        at += count;
    }
}

// ---- ops 07 to 0a, and the view

/// The assignment rule by one look into a display (source 004, Algorithm 9).
#[cfg_attr(feature = "in_line", inline(always))]
fn by_display(st: &State, _: u64, holder: usize, target: usize) -> bool {
    if target < 2 {
        return true;
    }
    let depth = st.areas[target].depth;
    depth != 0
        && depth <= st.areas[holder].depth
        && st.areas[holder].display[depth as usize - 1] as usize == target
}

/// By a walk of the parents (Algorithm 5).
#[cfg_attr(feature = "in_line", inline(always))]
fn by_walk(st: &State, _: u64, holder: usize, target: usize) -> bool {
    if target < 2 {
        return true;
    }
    let mut scope = holder;
    while scope >= 2 {
        if scope == target {
            return true;
        }
        scope = st.areas[scope].parent as usize;
    }
    false
}

/// By two scans of the thread's stack (Algorithms 3 and 4): right where both areas stand on it.
#[cfg_attr(feature = "in_line", inline(always))]
fn by_scan(st: &State, t: u64, holder: usize, target: usize) -> bool {
    if target < 2 || holder == target {
        return true;
    }
    if holder < 2 {
        return false;
    }
    let thread = &st.threads[t as usize];
    let stack = &thread.entries[..thread.len];
    match (distance(stack, target), distance(stack, holder)) {
        (Some(target), Some(holder)) => target > holder,
        _ => false,
    }
}

/// How far below the top an area stands (Algorithm 4).
#[cfg_attr(feature = "in_line", inline(always))]
fn distance(stack: &[u8], area: usize) -> Option<usize> {
    stack.iter().rev().position(|&entry| entry as usize == area)
}

/// Whether a thread may store a target of an area in a holder of an area.
pub type Rule = fn(&State, u64, usize, usize) -> bool;

#[inline(always)]
#[allow(clippy::too_many_arguments)]
fn store_by(
    rule: Rule,
    st: &State,
    p: &mut [u64],
    s: &mut [u64],
    m: &[u64],
    w: &[u64],
    t: u64,
    object: u64,
    slot: u64,
    target: u64,
) -> Result<u64, u64> {
    let (holder, kind) = st.usable(p, s, m, w, t, object)?;
    if slot >= holder.slots {
        return Err(14);
    }
    if let Some(area) = st.target(p, s, m, kind, target)? {
        if !rule(st, t, holder.area, area) {
            return Err(16);
        }
    }
    let at = holder.at + 1 + slot as usize;
    if holder.area < 2 {
        p[at] = target;
    } else {
        s[at] = target;
    }
    Ok(0)
}

/// A store by each of the three rules.
macro_rules! stores {
    ($($name:ident $rule:ident;)*) => {
        $(#[inline(never)]
        #[allow(clippy::too_many_arguments)]
        pub fn $name(
            st: &State,
            p: &mut [u64],
            s: &mut [u64],
            m: &[u64],
            w: &[u64],
            t: u64,
            object: u64,
            slot: u64,
            target: u64,
        ) -> Answer {
            answer(store_by($rule, st, p, s, m, w, t, object, slot, target))
        })*
    };
}

stores! {
    store by_display;
    store_by_walk by_walk;
    store_by_scan by_scan;
}

/// Each of the three rules by itself.
macro_rules! checks {
    ($($name:ident $rule:ident;)*) => {
        $(#[inline(never)]
        pub fn $name(st: &State, t: u64, holder: usize, target: usize) -> bool {
            $rule(st, t, holder, target)
        })*
    };
}

checks! {
    check_by_display by_display;
    check_by_walk by_walk;
    check_by_scan by_scan;
}

#[inline(never)]
#[allow(clippy::too_many_arguments)]
pub fn load(
    st: &State,
    p: &[u64],
    s: &[u64],
    m: &[u64],
    w: &[u64],
    t: u64,
    object: u64,
    slot: u64,
) -> Answer {
    answer(try_load(st, p, s, m, w, t, object, slot))
}

#[cfg_attr(feature = "in_line", inline(always))]
#[allow(clippy::too_many_arguments)]
fn try_load(
    st: &State,
    p: &[u64],
    s: &[u64],
    m: &[u64],
    w: &[u64],
    t: u64,
    object: u64,
    slot: u64,
) -> Result<u64, u64> {
    let (holder, kind) = st.usable(p, s, m, w, t, object)?;
    if slot >= holder.slots {
        return Err(14);
    }
    let at = holder.at + 1 + slot as usize;
    let word = if holder.area < 2 { p[at] } else { s[at] };
    st.target(p, s, m, kind, word)?;
    Ok(word)
}

#[inline(never)]
#[allow(clippy::too_many_arguments)]
pub fn write(
    st: &State,
    p: &mut [u64],
    s: &mut [u64],
    m: &[u64],
    w: &mut [u64],
    t: u64,
    object: u64,
    index: u64,
    word: u64,
) -> Answer {
    let object = match st.usable(p, s, m, w, t, object) {
        Err(status) => return refused(status),
        Ok((object, _)) => object,
    };
    if index >= object.data_words {
        return refused(14);
    }
    let at = object.at + 1 + (object.slots + index) as usize;
    let bit = bit_of(p, object.area, at);
    w[bit / 64] |= 1 << (bit % 64);
    if object.area < 2 {
        p[at] = word;
    } else {
        s[at] = word;
    }
    accepted(0)
}

#[inline(never)]
#[allow(clippy::too_many_arguments)]
pub fn read(
    st: &State,
    p: &[u64],
    s: &[u64],
    m: &[u64],
    w: &[u64],
    t: u64,
    object: u64,
    index: u64,
) -> Answer {
    let object = match st.usable(p, s, m, w, t, object) {
        Err(status) => return refused(status),
        Ok((object, _)) => object,
    };
    if index >= object.data_words {
        return refused(14);
    }
    let at = object.at + 1 + (object.slots + index) as usize;
    if !has_bit(w, bit_of(p, object.area, at)) {
        return refused(19);
    }
    accepted(if object.area < 2 { p[at] } else { s[at] })
}

#[inline(never)]
pub fn view(st: &State, p: &[u64], s: &[u64], m: &[u64], w: &[u64], t: u64, object: u64) -> View {
    match st.usable(p, s, m, w, t, object) {
        Err(status) => View {
            status,
            store: 0,
            from: 0,
            len: 0,
        },
        Ok((object, _)) => View {
            status: 0,
            store: u64::from(object.area >= 2),
            from: object.at as u64 + 1 + object.slots,
            len: object.data_words,
        },
    }
}
