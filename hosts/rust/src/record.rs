//! A core's record and safe functions over the exported ones. The only file with unsafe code.
//!
//! What they ask of their caller (include/scopes.h) is kept here: the fields of a [`Core`] are private
//! and come from [`set_up_in`] alone, it is neither copied nor cloned, and a call that changes it
//! borrows it alone; it borrows its buffers while it lives, and they are slices valid for their
//! lengths, which Rust's borrows keep from overlapping.

use core::marker::PhantomData;
use core::mem::MaybeUninit;
use core::slice;

use crate::sys::*;

/// A state and its four buffers, borrowed for as long as it lives. It cannot be copied. Calls that
/// only look take `&self`, so threads may share it for these; the others take `&mut self`. It lies at
/// a multiple of 64 bytes, laid out as `scopes_core` of the C header.
#[repr(transparent)]
pub struct Core<'m> {
    record: crate::sys::Core,
    buffers: PhantomData<&'m mut [u64]>,
}

// SAFETY: what the pointers point at is borrowed as `&mut [u64]`, which is `Send`; the functions keep
// no memory of their own, so they may be called from any thread.
unsafe impl Send for Core<'_> {}

// SAFETY: functions that take a `&Core` pass const pointers alone to the exported ones (`looks!`);
// these only read, and any number of them may run at once (include/scopes.h). The others take a
// `&mut Core`.
unsafe impl Sync for Core<'_> {}

/// The four buffers, borrowed from the host.
pub struct Memory<'m> {
    pub permanent: &'m mut [u64],
    pub scratch: &'m mut [u64],
    pub map: &'m mut [u64],
    pub written: &'m mut [u64],
}

/// Calls an exported function on tables, a record's buffers (as const pointers, where that is said)
/// and numbers.
macro_rules! call {
    ($exported:ident($words:expr, $bytes:expr, $record:expr $(, as $const:ident)?; $($number:ident),*)) => {
        $exported(
            $words,
            $bytes,
            $record.permanent$(.$const())?,
            $record.permanent_len,
            $record.scratch$(.$const())?,
            $record.scratch_len,
            $record.map$(.$const())?,
            $record.map_len,
            $record.written$(.$const())?,
            $record.written_len,
            $($number),*
        )
    };
}

/// Safe functions over exported ones that change something.
macro_rules! changes {
    ($(fn $name:ident($($number:ident),*) = $exported:ident;)*) => {
        $(pub fn $name(core: &mut Core, $($number: u64),*) -> Answer {
            let record = &mut core.record;
            let (words, bytes) = (record.words.as_mut_ptr(), record.bytes.as_mut_ptr());
            // SAFETY: the tables are those of a state and have their sizes, each buffer is borrowed by
            // the core and has its length (see above), and all of them are borrowed for writing.
            unsafe { call!($exported(words, bytes, record; $($number),*)) }
        })*
    };
}

/// Safe functions over exported ones that only look: every pointer is const.
macro_rules! looks {
    ($(fn $name:ident($($number:ident),*) -> $answer:ty = $exported:ident;)*) => {
        $(pub fn $name(core: &Core, $($number: u64),*) -> $answer {
            let record = &core.record;
            let (words, bytes) = (record.words.as_ptr(), record.bytes.as_ptr());
            // SAFETY: the tables and buffers as above; nothing is written, so that calls by other
            // threads which share the core may run beside this one.
            unsafe { call!($exported(words, bytes, record, as cast_const; $($number),*)) }
        })*
    };
}

changes! {
    fn start(thread, kind) = scopes_start;
    fn start_helper(thread, kind, helper) = scopes_start_helper;
    fn end(thread) = scopes_end;
    fn make(thread, area, size) = scopes_make;
    fn remove(thread, area) = scopes_remove;
    fn enter(thread, area) = scopes_enter;
    fn exit(thread) = scopes_exit;
    fn allocate(thread, slots, data_words) = scopes_allocate;
    fn store(thread, object, slot, target) = scopes_store;
    fn write(thread, object, index, word) = scopes_write;
}

looks! {
    fn load(thread, object, slot) -> Answer = scopes_load;
    fn read(thread, object, index) -> Answer = scopes_read;
    fn view_status(thread, object) -> Answer = scopes_view_status;
    fn view_place(thread, object) -> View = scopes_view_place;
}

/// Sets a core up in a place; yields the status beside it. A refused set-up gives a core too, whose
/// state is the one of empty buffers.
pub fn set_up_in<'p, 'm>(
    place: &'p mut MaybeUninit<Core<'m>>,
    memory: Memory<'m>,
    heap: u64,
    immortal: u64,
) -> (u64, &'p mut Core<'m>) {
    let record: *mut crate::sys::Core = place.as_mut_ptr().cast();
    // SAFETY: the place is one of a core, which is laid out as its record. Each buffer is a slice with
    // its own length. The exported function writes all of both tables, so that every field is written
    // in the end, and none is read before.
    unsafe {
        (&raw mut (*record).permanent).write(memory.permanent.as_mut_ptr());
        (&raw mut (*record).permanent_len).write(memory.permanent.len());
        (&raw mut (*record).scratch).write(memory.scratch.as_mut_ptr());
        (&raw mut (*record).scratch_len).write(memory.scratch.len());
        (&raw mut (*record).map).write(memory.map.as_mut_ptr());
        (&raw mut (*record).map_len).write(memory.map.len());
        (&raw mut (*record).written).write(memory.written.as_mut_ptr());
        (&raw mut (*record).written_len).write(memory.written.len());
        let words = (&raw mut (*record).words).cast();
        let bytes = (&raw mut (*record).bytes).cast();
        let status = call!(scopes_set_up_in_place(words, bytes, (*record); heap, immortal));
        (status, place.assume_init_mut())
    }
}

/// The same by value.
pub fn set_up(memory: Memory<'_>, heap: u64, immortal: u64) -> (u64, Core<'_>) {
    let mut place = MaybeUninit::uninit();
    let (status, _) = set_up_in(&mut place, memory, heap, immortal);
    // SAFETY: set-up has written the core, refused or not.
    (status, unsafe { place.assume_init() })
}

/// A load, which is lent no buffer.
pub fn load_rights(core: &mut Core, text: &[u8]) -> Answer {
    let (words, bytes) = (core.record.words.as_ptr(), core.record.bytes.as_mut_ptr());
    // SAFETY: the tables are those of a state and have their sizes, the core is borrowed for writing,
    // and the text is a slice with its own length.
    unsafe { scopes_load_rights(words, bytes, text.as_ptr(), text.len()) }
}

/// Slices of the buffers that a core has borrowed.
macro_rules! slices {
    ($($name:ident $len:ident)*) => {
        $(pub fn $name<'c>(core: &'c Core) -> &'c [u64] {
            // SAFETY: pointer and length are those of a slice that the core has borrowed alone, and
            // calls write it through a `&mut Core` only.
            unsafe { slice::from_raw_parts(core.record.$name, core.record.$len) }
        })*
    };
}

slices! {
    permanent permanent_len
    scratch scratch_len
    map map_len
    written written_len
}

pub fn stack_empty() -> ScopeStack {
    // SAFETY: the function asks for nothing.
    unsafe { scopes_stack_empty() }
}

pub fn stack_push(stack: &mut ScopeStack, area: u64) -> Answer {
    // SAFETY: the record is borrowed for writing; nothing is asked of its contents.
    unsafe { scopes_stack_push(stack, area) }
}

pub fn stack_pop(stack: &mut ScopeStack) -> Answer {
    // SAFETY: as for push.
    unsafe { scopes_stack_pop(stack) }
}

#[cfg(test)]
mod tests {
    use super::*;

    /// Every call is refused by 1.
    fn refuses_by_1(core: &mut Core) {
        assert_eq!(start(core, 1, 2).status, 1);
        assert_eq!(start_helper(core, 0, 2, 1).status, 1);
        assert_eq!(end(core, 0).status, 1);
        assert_eq!(make(core, 0, 3, 8).status, 1);
        assert_eq!(remove(core, 0, 2).status, 1);
        assert_eq!(enter(core, 0, 0).status, 1);
        assert_eq!(exit(core, 0).status, 1);
        assert_eq!(allocate(core, 0, 0, 1).status, 1);
        assert_eq!(store(core, 0, 1, 0, 0).status, 1);
        assert_eq!(load(core, 0, 1, 0).status, 1);
        assert_eq!(write(core, 0, 1, 0, 0).status, 1);
        assert_eq!(read(core, 0, 1, 0).status, 1);
        assert_eq!(view_status(core, 0, 1).status, 1);
        assert_eq!(view_place(core, 0, 1).status, 1);
    }

    /// Another length is refused by 1 in every call, whichever buffer is one word short.
    #[test]
    fn refuses_other_lengths() {
        let (mut permanent, mut scratch) = ([0; 64], [0; 64]);
        let (mut map, mut written) = ([0; 2], [0; 2]);
        let memory = Memory {
            permanent: &mut permanent,
            scratch: &mut scratch,
            map: &mut map,
            written: &mut written,
        };
        let (status, mut core) = set_up(memory, 64, 0);
        assert_eq!(status, 0);
        assert_eq!(start(&mut core, 0, 2).status, 0);
        assert_eq!(make(&mut core, 0, 2, 8).status, 0);
        let lengths: [fn(&mut crate::sys::Core) -> &mut usize; 4] = [
            |record| &mut record.permanent_len,
            |record| &mut record.scratch_len,
            |record| &mut record.map_len,
            |record| &mut record.written_len,
        ];
        for length in lengths {
            *length(&mut core.record) -= 1;
            refuses_by_1(&mut core);
            *length(&mut core.record) += 1;
        }
        assert_eq!(remove(&mut core, 0, 2).status, 0);
        assert_eq!(end(&mut core, 0).status, 0);
    }

    /// The state of a refused set-up serves empty buffers, and a load, which is lent none.
    #[test]
    fn refused_set_up_serves_empty_buffers() {
        let mut permanent = [0; 4];
        let memory = Memory {
            permanent: &mut permanent,
            scratch: &mut [],
            map: &mut [],
            written: &mut [],
        };
        let (status, mut core) = set_up(memory, 4, 0);
        assert_eq!(status, 1);
        assert_eq!(load_rights(&mut core, &[]).status, 23);
        assert_eq!(load_rights(&mut core, &[b'1'; 36]).status, 0);
        assert_eq!(start(&mut core, 0, 2).status, 1);
        core.record.permanent_len = 0;
        assert_eq!(start(&mut core, 0, 2).status, 0);
        assert_eq!(load_rights(&mut core, &[b'1'; 36]).status, 24);
        assert_eq!(enter(&mut core, 0, 1).value, 1);
        assert_eq!(allocate(&mut core, 0, 0, 0).status, 12);
        assert_eq!(make(&mut core, 0, 2, 1).status, 8);
        assert_eq!(remove(&mut core, 0, 2).status, 6);
    }

    /// The status and the tables of a set-up in a place that is painted before.
    fn set_up_on(paint: u8, heap: u64) -> (u64, [u64; STATE_WORDS], [u8; STATE_BYTES]) {
        let (mut permanent, mut map, mut written) = ([0; 4], [0; 1], [0; 1]);
        let memory = Memory {
            permanent: &mut permanent,
            scratch: &mut [],
            map: &mut map,
            written: &mut written,
        };
        let mut place = MaybeUninit::<Core>::uninit();
        // SAFETY: the place is this function's own.
        unsafe { place.as_mut_ptr().write_bytes(paint, 1) };
        let (status, core) = set_up_in(&mut place, memory, heap, 0);
        (status, core.record.words, core.record.bytes)
    }

    /// Whatever the place held, accepted or refused.
    #[test]
    fn set_up_writes_all_of_the_tables() {
        for (heap, status) in [(4, 0), (5, 1)] {
            let tables = set_up_on(0, heap);
            assert_eq!(tables.0, status);
            assert_eq!(set_up_on(0xa5, heap), tables);
        }
    }
}
