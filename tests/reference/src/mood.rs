//! What a stretch of a list is mostly about.

use crate::random::Random;

#[derive(Clone, Copy, Debug, PartialEq, Eq)]
pub enum Mood {
    /// Threads are started and scopes made.
    Gather,
    /// One thread goes as deep as it can.
    Nest,
    /// Threads enter scopes that others stand in.
    Share,
    /// Areas are filled.
    Fill,
    /// References are stored and loaded.
    Link,
    /// Data words are written and read.
    Data,
    /// Scopes are emptied and used again.
    Churn,
    /// Threads start helpers where they stand; both leave.
    Helpers,
    /// Scopes of any number of blocks are made and removed, and few of them entered.
    Fragment,
    /// Scopes are removed and made again, and handles from before are tried.
    Renew,
    /// Threads leave and end.
    Unwind,
    /// Any op with any arguments.
    Chaos,
    /// Mostly lines that are no frames.
    Noise,
}

const MOODS: [Mood; 13] = [
    Mood::Gather,
    Mood::Nest,
    Mood::Share,
    Mood::Fill,
    Mood::Link,
    Mood::Data,
    Mood::Churn,
    Mood::Helpers,
    Mood::Fragment,
    Mood::Renew,
    Mood::Unwind,
    Mood::Chaos,
    Mood::Noise,
];

/// How often each mood follows another.
const FREQUENCIES: [u64; 13] = [8, 22, 15, 10, 20, 10, 24, 14, 8, 16, 10, 10, 3];

impl Mood {
    pub fn any(random: &mut Random) -> Mood {
        MOODS[random.weighted(&FREQUENCIES)]
    }

    /// How many lines the mood lasts.
    pub fn lines(self, random: &mut Random) -> u64 {
        match self {
            Mood::Nest => random.between(20, 90),
            Mood::Churn => random.between(30, 90),
            Mood::Helpers => random.between(20, 70),
            Mood::Fragment | Mood::Renew => random.between(30, 90),
            Mood::Noise => random.between(3, 12),
            _ => random.between(8, 40),
        }
    }

    /// The weights of ops 01 to 0c.
    pub fn weights(self) -> [u64; 12] {
        match self {
            Mood::Gather => [30, 3, 45, 10, 2, 5, 1, 1, 1, 2, 2, 1],
            Mood::Nest => [2, 0, 8, 78, 2, 8, 1, 0, 1, 0, 3, 0],
            Mood::Share => [3, 1, 2, 68, 8, 10, 4, 2, 1, 1, 3, 1],
            Mood::Fill => [1, 0, 3, 8, 3, 68, 6, 3, 4, 4, 0, 0],
            Mood::Link => [1, 0, 1, 5, 2, 22, 44, 20, 3, 2, 1, 0],
            Mood::Data => [1, 0, 1, 3, 2, 15, 3, 3, 38, 34, 0, 0],
            Mood::Churn => [1, 0, 1, 20, 22, 22, 5, 5, 14, 14, 0, 0],
            Mood::Helpers => [2, 10, 2, 26, 34, 8, 6, 3, 2, 2, 22, 1],
            Mood::Fragment => [1, 0, 46, 5, 8, 3, 1, 1, 1, 1, 0, 36],
            Mood::Renew => [1, 0, 14, 18, 20, 14, 10, 4, 12, 12, 0, 14],
            Mood::Unwind => [1, 8, 1, 6, 68, 4, 4, 4, 2, 2, 1, 2],
            Mood::Chaos | Mood::Noise => [10, 6, 8, 12, 8, 12, 14, 10, 10, 10, 8, 8],
        }
    }

    /// How often, in a hundred, an argument is taken at random.
    pub fn wildness(self) -> u64 {
        match self {
            Mood::Chaos => 40,
            Mood::Churn | Mood::Renew => 10,
            _ => 5,
        }
    }

    /// How often, in a hundred, a call is made by the thread that the mood is about.
    pub fn focus(self) -> u64 {
        match self {
            Mood::Nest => 92,
            Mood::Churn | Mood::Renew | Mood::Unwind => 60,
            Mood::Helpers => 40,
            _ => 15,
        }
    }

    /// How often, in a hundred, a word is read where one was stored or written.
    pub fn used_places(self) -> u64 {
        match self {
            Mood::Churn | Mood::Renew => 15,
            _ => 55,
        }
    }

    /// How often, in a hundred, the last data word of a new object is used at once.
    pub fn follow_ups(self) -> u64 {
        match self {
            Mood::Churn | Mood::Renew => 50,
            _ => 0,
        }
    }

    /// How often an entry is to the heap or immortal, to an open scope that may be entered, to any
    /// made scope, and to a closed scope.
    pub fn entries(self) -> [u64; 4] {
        match self {
            Mood::Nest => [5, 2, 3, 90],
            Mood::Share => [10, 75, 6, 9],
            Mood::Churn | Mood::Renew => [6, 12, 4, 78],
            _ => [16, 38, 12, 34],
        }
    }

    /// How often, in a hundred, the size of a scope is at a border of whole blocks.
    pub fn whole_blocks(self) -> u64 {
        match self {
            Mood::Fragment => 90,
            Mood::Renew => 40,
            _ => 0,
        }
    }

    /// How many lines in a hundred are no frames.
    pub fn noise(self) -> u64 {
        match self {
            Mood::Noise => 60,
            _ => 4,
        }
    }
}
