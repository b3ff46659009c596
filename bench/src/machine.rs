//! The sides that are measured, behind one set of calls: the exported functions, the core tuned for speed in Rust,
//! and plain Rust.

use exports::exports as c;

/// What a call answers, on every side.
pub use c::{Answer, View};

/// Sizes of the lent buffers, the same on all sides. A side may be lent a part of the scratch store and of the maps.
const PERMANENT: usize = 2_048;
const HEAP: u64 = 1_024;
pub const SCRATCH: usize = 16_384;
const MAP: usize = map_words(SCRATCH);
/// Words of a block of scratch.
pub const BLOCK: u64 = 16;

/// The words of either map where the scratch store has so many.
const fn map_words(scratch: usize) -> usize {
    (PERMANENT + scratch).div_ceil(64)
}

pub trait Machine {
    fn set_up() -> Self
    where
        Self: Sized;
    fn load_rights(&mut self, text: &[u8]) -> Answer;
    fn start(&mut self, t: u64, kind: u64) -> Answer;
    fn start_helper(&mut self, t: u64, kind: u64, helper: u64) -> Answer;
    fn end(&mut self, t: u64) -> Answer;
    fn make(&mut self, t: u64, area: u64, size: u64) -> Answer;
    fn remove(&mut self, t: u64, area: u64) -> Answer;
    fn enter(&mut self, t: u64, area: u64) -> Answer;
    fn exit(&mut self, t: u64) -> Answer;
    fn allocate(&mut self, t: u64, slots: u64, data_words: u64) -> Answer;
    fn store(&mut self, t: u64, object: u64, slot: u64, target: u64) -> Answer;
    fn load(&mut self, t: u64, object: u64, slot: u64) -> Answer;
    fn write(&mut self, t: u64, object: u64, index: u64, word: u64) -> Answer;
    fn read(&mut self, t: u64, object: u64, index: u64) -> Answer;
    fn view(&mut self, t: u64, object: u64) -> View;
    /// The words of the lent buffers: permanent store, scratch store, start map, written map.
    fn buffers(&self) -> [&[u64]; 4];
}

/// A core that may be lent a scratch store of any length up to the whole one. The length is a constant of its type, as
/// it is one of a host's program.
pub trait Resizable: Machine + 'static {
    type With<const S: usize>: Machine + 'static;
}

/// The buffers and the state, in one piece from the start of a page on, so that they lie alike on all sides;
/// the state is aligned to 64 bytes.
#[repr(C, align(4096))]
struct Memory<State> {
    permanent: [u64; PERMANENT],
    scratch: [u64; SCRATCH],
    map: [u64; MAP],
    written: [u64; MAP],
    state: State,
}

impl<State> Memory<State> {
    fn new(state: State) -> Box<Memory<State>> {
        Box::new(Memory {
            permanent: [0; PERMANENT],
            scratch: [0; SCRATCH],
            map: [0; MAP],
            written: [0; MAP],
            state,
        })
    }

    fn buffers(&self) -> [&[u64]; 4] {
        [&self.permanent, &self.scratch, &self.map, &self.written]
    }

    /// The state and the buffers, as they are lent with a scratch store of S words.
    #[inline(always)]
    fn lent<const S: usize>(&mut self) -> (&mut State, [&mut [u64]; 4]) {
        let buffers = [
            &mut self.permanent[..],
            &mut self.scratch[..S],
            &mut self.map[..map_words(S)],
            &mut self.written[..map_words(S)],
        ];
        (&mut self.state, buffers)
    }
}

// ---- the exported functions

/// The state's tables, as they lie in a host's handle.
#[repr(C)]
struct Tables {
    words_line: c::CacheLine,
    words: [u64; c::STATE_WORDS],
    bytes_line: c::CacheLine,
    bytes: [u8; c::STATE_BYTES],
}

impl Tables {
    fn new(words: [u64; c::STATE_WORDS], bytes: [u8; c::STATE_BYTES]) -> Tables {
        Tables {
            words_line: c::CacheLine,
            words,
            bytes_line: c::CacheLine,
            bytes,
        }
    }
}

pub struct Core<const S: usize = SCRATCH> {
    memory: Box<Memory<Tables>>,
}

impl<const ANY: usize> Resizable for Core<ANY> {
    type With<const S: usize> = Core<S>;
}

/// Calls of exported functions with the state, the buffers and numbers.
macro_rules! exported {
    ($($method:ident($($number:ident),*) -> $answer:ident: $function:ident;)*) => {
        $(#[inline(always)]
        fn $method(&mut self, $($number: u64),*) -> $answer {
            let (state, [permanent, scratch, map, written]) = self.memory.lent::<S>();
            // SAFETY: the state is one of set-up and calls, with the buffers of its set-up, which are slices with
            // their lengths.
            unsafe {
                c::$function(
                    state.words.as_mut_ptr(),
                    state.bytes.as_mut_ptr(),
                    permanent.as_mut_ptr(),
                    permanent.len(),
                    scratch.as_mut_ptr(),
                    scratch.len(),
                    map.as_mut_ptr(),
                    map.len(),
                    written.as_mut_ptr(),
                    written.len(),
                    $($number),*
                )
            }
        })*
    };
}

impl<const S: usize> Machine for Core<S> {
    fn set_up() -> Core<S> {
        let mut memory = Memory::new(Tables::new([0; c::STATE_WORDS], [0; c::STATE_BYTES]));
        let (state, [permanent, scratch, map, written]) = memory.lent::<S>();
        // SAFETY: four slices with their lengths.
        let c::NewState {
            status,
            words,
            bytes,
        } = unsafe {
            c::scopes_set_up(
                permanent.as_ptr(),
                permanent.len(),
                scratch.as_ptr(),
                scratch.len(),
                map.as_ptr(),
                map.len(),
                written.as_ptr(),
                written.len(),
                HEAP,
                PERMANENT as u64 - HEAP,
            )
        };
        assert_eq!(status, 0);
        *state = Tables::new(words, bytes);
        Core { memory }
    }

    fn load_rights(&mut self, text: &[u8]) -> Answer {
        let Tables { words, bytes, .. } = &mut self.memory.state;
        let (words, bytes) = (words.as_ptr(), bytes.as_mut_ptr());
        // SAFETY: the state is one of set-up and calls; the text is a slice with its length.
        unsafe { c::scopes_load_rights(words, bytes, text.as_ptr(), text.len()) }
    }

    fn buffers(&self) -> [&[u64]; 4] {
        self.memory.buffers()
    }

    exported! {
        start(t, kind) -> Answer: scopes_start;
        start_helper(t, kind, helper) -> Answer: scopes_start_helper;
        end(t) -> Answer: scopes_end;
        make(t, area, size) -> Answer: scopes_make;
        remove(t, area) -> Answer: scopes_remove;
        enter(t, area) -> Answer: scopes_enter;
        exit(t) -> Answer: scopes_exit;
        allocate(t, slots, data_words) -> Answer: scopes_allocate;
        store(t, object, slot, target) -> Answer: scopes_store;
        load(t, object, slot) -> Answer: scopes_load;
        write(t, object, index, word) -> Answer: scopes_write;
        read(t, object, index) -> Answer: scopes_read;
        view(t, object) -> View: scopes_view_place;
    }
}

// ---- the cores in Rust

/// Calls of a crate's functions with the state, the buffers and numbers. Each crate has its own answers, of the same
/// fields.
macro_rules! called {
    (
        $crate_name:ident,
        $($visible:vis $method:ident($($number:ident),*) -> $answer:ident { $($field:ident),* }: $function:ident;)*
    ) => {
        $(#[inline(always)]
        $visible fn $method(&mut self, $($number: u64),*) -> $answer {
            let (state, [permanent, scratch, map, written]) = self.memory.lent::<S>();
            let given = $crate_name::$function(state, permanent, scratch, map, written, $($number),*);
            $answer { $($field: given.$field),* }
        })*
    };
}

/// A side over one of these crates, with one of its stores.
macro_rules! side {
    ($side:ident, $crate_name:ident, $store:ident) => {
        pub struct $side<const S: usize = SCRATCH> {
            memory: Box<Memory<$crate_name::State>>,
        }

        impl<const ANY: usize> Resizable for $side<ANY> {
            type With<const S: usize> = $side<S>;
        }

        impl<const S: usize> Machine for $side<S> {
            fn set_up() -> $side<S> {
                let state = $crate_name::State::set_up(PERMANENT, S, map_words(S), HEAP);
                $side {
                    memory: Memory::new(state),
                }
            }

            fn load_rights(&mut self, text: &[u8]) -> Answer {
                let given = $crate_name::load_rights(&mut self.memory.state, text);
                Answer {
                    status: given.status,
                    value: given.value,
                }
            }

            fn buffers(&self) -> [&[u64]; 4] {
                self.memory.buffers()
            }

            called! {
                $crate_name,
                start(t, kind) -> Answer { status, value }: start;
                start_helper(t, kind, helper) -> Answer { status, value }: start_helper;
                end(t) -> Answer { status, value }: end;
                make(t, area, size) -> Answer { status, value }: make;
                remove(t, area) -> Answer { status, value }: remove;
                enter(t, area) -> Answer { status, value }: enter;
                exit(t) -> Answer { status, value }: exit;
                allocate(t, slots, data_words) -> Answer { status, value }: allocate;
                store(t, object, slot, target) -> Answer { status, value }: $store;
                load(t, object, slot) -> Answer { status, value }: load;
                write(t, object, index, word) -> Answer { status, value }: write;
                read(t, object, index) -> Answer { status, value }: read;
                view(t, object) -> View { status, store, from, len }: view;
            }
        }
    };
}

side!(Tuned, tuned, store);
side!(Unchecked, tuned_unchecked, store);
side!(Plain, plain, store);
side!(InLine, in_line, store);
side!(Walk, in_line, store_by_walk);
side!(Scan, in_line, store_by_scan);

impl<const S: usize> InLine<S> {
    /// One of the rules alone.
    #[inline(always)]
    pub fn check(&self, rule: in_line::Rule, t: u64, holder: u64, target: u64) -> bool {
        rule(&self.memory.state, t, holder as usize, target as usize)
    }
}

impl<const S: usize> Scan<S> {
    called! {
        in_line,
        // A store that the scan does not decide.
        pub store_by_display(t, object, slot, target) -> Answer { status, value }: store;
    }
}
