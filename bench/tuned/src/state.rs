//! The state's records, and what every call begins with: the caller, and the object of a handle.

use crate::access::get;
use crate::blocks::UsedBits;
use crate::rights::{masks, Mask, Right, BUILT_IN};

pub const THREADS: u64 = 16;
pub const AREAS: u64 = 64;
pub const STACK_ENTRIES: usize = 32;
pub const FIRST_SCOPE: usize = 2;

#[derive(Clone, Copy, Debug, PartialEq, Eq)]
pub struct Answer {
    pub status: u64,
    pub value: u64,
}

/// Where an object's data words lie: in the permanent (0) or the scratch store (1), from a word on.
#[derive(Clone, Copy, Debug, PartialEq, Eq)]
pub struct View {
    pub status: u64,
    pub store: u64,
    pub from: u64,
    pub len: u64,
}

#[inline(always)]
pub fn refused(status: u64) -> Answer {
    Answer { status, value: 0 }
}

#[inline(always)]
pub fn accepted(value: u64) -> Answer {
    Answer { status: 0, value }
}

#[derive(Clone, Copy, Default)]
#[repr(C, align(32))]
pub struct Area {
    pub generation: u64,
    /// The place of its first word in its store.
    pub start: u32,
    /// The place of that word's bit in either map.
    pub bit: u32,
    pub used: u32,
    pub size: u32,
    pub count: u32,
    pub parent: u8,
    pub depth: u8,
}

#[derive(Clone, Copy, Default)]
#[repr(C)]
pub struct Thread {
    /// Those of its kind, as long as it is started.
    pub rights: Mask,
    /// 0 where it is not started.
    pub kind: u8,
    pub len: u8,
    pub entries: [u8; STACK_ENTRIES],
    /// Beside each entry, the innermost scope as of it.
    pub inner: [u8; STACK_ENTRIES],
}

#[derive(Clone)]
#[repr(C, align(64))]
pub struct State {
    pub areas: [Area; AREAS as usize],
    /// Of each area its ancestors, outermost first, itself last.
    pub displays: [[u8; 32]; AREAS as usize],
    pub threads: [Thread; THREADS as usize],
    pub permanent: usize,
    pub scratch: usize,
    /// Of either map.
    pub map: usize,
    pub used_bits: UsedBits,
    /// Those of each kind.
    pub rights: [Mask; 3],
}

/// A live object: its area, the places of its header in its store and of the header's bit in a map, its slots and
/// its data words.
pub struct Object {
    pub area: usize,
    pub at: u32,
    pub bit: u32,
    pub slots: u32,
    pub data_words: u32,
}

impl State {
    /// An accepted set-up.
    pub fn set_up(permanent: usize, scratch: usize, map: usize, heap: u64) -> State {
        let heap = heap as u32;
        let mut areas = [Area::default(); AREAS as usize];
        areas[0] = Area {
            size: heap,
            generation: 1,
            ..Area::default()
        };
        areas[1] = Area {
            start: heap,
            bit: heap,
            size: permanent as u32 - heap,
            generation: 1,
            ..Area::default()
        };
        State {
            areas,
            displays: [[0; 32]; AREAS as usize],
            threads: [Thread::default(); THREADS as usize],
            permanent,
            scratch,
            map,
            used_bits: UsedBits::default(),
            rights: masks(&BUILT_IN),
        }
    }

    /// Refusal 1, by one branch.
    #[inline(always)]
    pub fn other_lengths(
        &self,
        permanent: &[u64],
        scratch: &[u64],
        map: &[u64],
        written: &[u64],
    ) -> bool {
        let different = (permanent.len() ^ self.permanent)
            | (scratch.len() ^ self.scratch)
            | (map.len() ^ self.map)
            | (written.len() ^ self.map);
        different != 0
    }

    /// Refusals 1 and 2; yields the thread's rights.
    #[inline(always)]
    pub fn caller(
        &self,
        permanent: &[u64],
        scratch: &[u64],
        map: &[u64],
        written: &[u64],
        t: u64,
    ) -> Result<Mask, u64> {
        if self.other_lengths(permanent, scratch, map, written) {
            return Err(1);
        }
        if t >= THREADS {
            return Err(2);
        }
        let rights = self.threads[t as usize].rights;
        if !rights.is_started() {
            return Err(2);
        }
        Ok(rights)
    }

    #[inline(always)]
    pub fn look_up(
        &self,
        permanent: &[u64],
        scratch: &[u64],
        map: &[u64],
        handle: u64,
    ) -> Option<Object> {
        let area = (handle >> 14 & 0x3f) as usize;
        let offset = (handle & 0x3fff) as u32;
        let record = &self.areas[area];
        if handle >> 20 != record.generation || offset >= record.used {
            return None;
        }
        let bit = record.bit.wrapping_add(offset);
        if get(map, bit as usize / 64) >> (bit % 64) & 1 == 0 {
            return None;
        }
        let at = record.start.wrapping_add(offset);
        let header = get(select(area, permanent, scratch), at as usize) as u32;
        let (slots, data_words) = (header & 0x3fff, header >> 14 & 0x3fff);
        if offset + slots + data_words >= record.used {
            return None;
        }
        Some(Object {
            area,
            at,
            bit,
            slots,
            data_words,
        })
    }

    /// Refusals 1, 2, 13 and 5; yields the thread's rights beside the object.
    #[inline(always)]
    pub fn usable(
        &self,
        permanent: &[u64],
        scratch: &[u64],
        map: &[u64],
        written: &[u64],
        t: u64,
        object: u64,
    ) -> Result<(Object, Mask), u64> {
        let rights = self.caller(permanent, scratch, map, written, t)?;
        let object = self.look_up(permanent, scratch, map, object).ok_or(13u64)?;
        if !rights.have(Right::Use, object.area) {
            return Err(5);
        }
        Ok((object, rights))
    }
}

/// The store of an area.
#[inline(always)]
pub fn select<T>(area: usize, permanent: T, scratch: T) -> T {
    if area < FIRST_SCOPE {
        permanent
    } else {
        scratch
    }
}
