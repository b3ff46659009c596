//! What calls name: threads, their kinds, areas, and handles of objects.

use core::num::NonZeroU64;

/// A thread by its number. The core has threads 0 to 15; any other is refused by
/// [`Thread`](crate::Refusal::Thread).
#[derive(Clone, Copy, Debug, PartialEq, Eq, Hash)]
pub struct Thread(u64);

impl Thread {
    /// The thread with a number.
    pub const fn new(number: u64) -> Thread {
        Thread(number)
    }

    /// Its number.
    pub const fn number(self) -> u64 {
        self.0
    }
}

/// The kind of a thread, which decides what it may do in which area. What each kind may do is told
/// here by the built-in rights table; [`Core::load_rights`](crate::Core::load_rights) puts another in
/// its place.
#[derive(Clone, Copy, Debug, PartialEq, Eq, Hash)]
pub enum Kind {
    /// Has all rights in the heap, and may use immortal objects and refer to them.
    Ordinary = 1,
    /// Has all rights in every area.
    RealTime = 2,
    /// Has all rights in every area but the heap, and none there.
    NoHeap = 3,
}

/// An area by its number: 0 is the heap, 1 immortal memory, 2 to 63 are scopes. Any other is refused
/// by [`Area`](crate::Refusal::Area).
#[derive(Clone, Copy, Debug, PartialEq, Eq, Hash)]
pub struct Area(u64);

impl Area {
    /// The heap.
    pub const HEAP: Area = Area(0);
    /// Immortal memory.
    pub const IMMORTAL: Area = Area(1);

    /// The area with a number.
    pub const fn new(number: u64) -> Area {
        Area(number)
    }

    /// Its number.
    pub const fn number(self) -> u64 {
        self.0
    }
}

/// The handle of an object, live or not: every call tells. Null is no handle; where a slot may be
/// null, calls take and give an `Option<Handle>`.
#[derive(Clone, Copy, Debug, PartialEq, Eq, Hash)]
pub struct Handle(NonZeroU64);

impl Handle {
    /// The handle that a word stands for; none where the word is 0, which is null.
    pub fn from_word(word: u64) -> Option<Handle> {
        NonZeroU64::new(word).map(Handle)
    }

    /// The word that stands for it: offset in bits 0 to 13, area in bits 14 to 19, generation above.
    pub fn word(self) -> u64 {
        self.0.get()
    }

    /// The area that it names.
    pub fn area(self) -> Area {
        Area(self.word() >> 14 & 0x3f)
    }
}

/// The word of a slot: a handle's, or 0 for null.
pub(crate) fn slot_word(target: Option<Handle>) -> u64 {
    target.map_or(0, Handle::word)
}
