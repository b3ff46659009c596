//! The raw layer: the records and functions of `include/scopes.h` as they are declared there, and
//! nothing over them. That header says what each function does and what its caller owes; every one is
//! unsafe to call. [`Core`](crate::Core) is safe and needs none of this.

use core::mem::offset_of;

/// How many words a state has.
pub const STATE_WORDS: usize = 563;
/// How many bytes a state has beside its words.
pub const STATE_BYTES: usize = 3108;

/// `scopes_new_state`: what set-up by value gives, its status and the tables.
#[repr(C)]
#[derive(Clone, PartialEq, Eq)]
#[allow(missing_docs)]
pub struct NewState {
    pub status: u64,
    pub words: [u64; STATE_WORDS],
    pub bytes: [u8; STATE_BYTES],
}

/// `scopes_answer`: status 0 and a value, or a refusal and 0.
#[repr(C)]
#[derive(Clone, Copy, Debug, PartialEq, Eq)]
#[allow(missing_docs)]
pub struct Answer {
    pub status: u64,
    pub value: u64,
}

/// `scopes_view`: a part of the permanent (0) or the scratch store (1).
#[repr(C)]
#[derive(Clone, Copy, Debug, PartialEq, Eq)]
#[allow(missing_docs)]
pub struct View {
    pub status: u64,
    pub store: u64,
    pub from: u64,
    pub len: u64,
}

/// `scopes_stack`: one thread's stack, for the host's scheduler.
#[repr(C)]
#[derive(Clone, Copy, Debug, PartialEq, Eq)]
#[allow(missing_docs)]
pub struct ScopeStack {
    pub len: u64,
    pub entries: [u8; 32],
}

/// No bytes, at a multiple of 64 bytes: what follows in a record begins a cache line.
#[repr(C, align(64))]
#[derive(Clone, Copy, Debug, Default, PartialEq, Eq)]
pub struct CacheLine;

/// `scopes_core`: the handle of a core, a state and the buffers of its set-up with their lengths.
/// Words and bytes each begin a cache line, so that no area's record and no display crosses one.
#[repr(C)]
#[allow(missing_docs)]
pub struct Core {
    pub words_line: CacheLine,
    pub words: [u64; STATE_WORDS],
    pub bytes_line: CacheLine,
    pub bytes: [u8; STATE_BYTES],
    pub permanent: *mut u64,
    pub permanent_len: usize,
    pub scratch: *mut u64,
    pub scratch_len: usize,
    pub map: *mut u64,
    pub map_len: usize,
    pub written: *mut u64,
    pub written_len: usize,
}

// As in the header: the bytes begin at the next cache line behind the words, the buffers right behind.
const BYTES_AT: usize = (8 * STATE_WORDS).next_multiple_of(64);
const _: () = assert!(align_of::<Core>() == 64 && offset_of!(Core, words) == 0);
const _: () = assert!(offset_of!(Core, bytes) == BYTES_AT);
const _: () = assert!(offset_of!(Core, permanent) == (BYTES_AT + STATE_BYTES).next_multiple_of(8));

/// Declares functions over the state's words and bytes and the four buffers, each as `const` or
/// `mut`, then numbers.
macro_rules! exported {
    ($($name:ident($words:tt $bytes:tt, $stores:tt $map:tt $written:tt, $($number:ident),*) -> $answer:ty;)*) => {
        extern "C" {
            $(#[doc = concat!("As in `include/scopes.h`. The tables are `", stringify!($words), "` and `",
                stringify!($bytes), "`, the stores `", stringify!($stores), "`, the start map `", stringify!($map),
                "`, the written map `", stringify!($written), "`.")]
            pub fn $name(
                words: *$words u64,
                bytes: *$bytes u8,
                permanent: *$stores u64,
                permanent_len: usize,
                scratch: *$stores u64,
                scratch_len: usize,
                map: *$map u64,
                map_len: usize,
                written: *$written u64,
                written_len: usize,
                $($number: u64),*
            ) -> $answer;)*
        }
    };
}

exported! {
    scopes_set_up_in_place(mut mut, const const const, heap, immortal) -> u64;
    scopes_start(mut const, const const const, thread, kind) -> Answer;
    scopes_start_helper(mut mut, const const const, thread, kind, helper) -> Answer;
    scopes_end(mut const, const const const, thread) -> Answer;
    scopes_make(mut const, const const const, thread, area, size) -> Answer;
    scopes_remove(mut const, const const const, thread, area) -> Answer;
    scopes_enter(mut mut, const const const, thread, area) -> Answer;
    scopes_exit(mut const, const const const, thread) -> Answer;
    scopes_allocate(mut const, mut mut mut, thread, slots, data_words) -> Answer;
    scopes_store(const const, mut const const, thread, object, slot, target) -> Answer;
    scopes_load(const const, const const const, thread, object, slot) -> Answer;
    scopes_write(const const, mut const mut, thread, object, index, word) -> Answer;
    scopes_read(const const, const const const, thread, object, index) -> Answer;
    scopes_view_status(const const, const const const, thread, object) -> Answer;
    scopes_view_place(const const, const const const, thread, object) -> View;
}

extern "C" {
    /// The version of the archive: major * 1,000,000 + minor * 1,000 + patch.
    pub fn scopes_version() -> u64;
    /// Set-up by value.
    pub fn scopes_set_up(
        permanent: *const u64,
        permanent_len: usize,
        scratch: *const u64,
        scratch_len: usize,
        map: *const u64,
        map_len: usize,
        written: *const u64,
        written_len: usize,
        heap: u64,
        immortal: u64,
    ) -> NewState;
    /// Puts a rights table in force; lent no buffer.
    pub fn scopes_load_rights(
        words: *const u64,
        bytes: *mut u8,
        text: *const u8,
        text_len: usize,
    ) -> Answer;
    /// An empty stack record.
    pub fn scopes_stack_empty() -> ScopeStack;
    /// Puts an area on top of a stack record.
    pub fn scopes_stack_push(stack: *mut ScopeStack, area: u64) -> Answer;
    /// Takes the top off a stack record.
    pub fn scopes_stack_pop(stack: *mut ScopeStack) -> Answer;
}
