//! Calls that make, enter, leave and remove scopes.

use super::Generator;
use crate::blocks::BLOCK_WORDS;
use crate::calls::{Call, Op};
use crate::mood::Mood;
use crate::rights::Kind;
use crate::state::{AREAS, FIRST_SCOPE, HEAP, IMMORTAL, THREADS};

/// Scratch is crowded where the longest gap has fewer blocks, unless it is to be.
const CROWDED: u64 = 4;
/// Scopes are many, and further ones small, from this number on.
const MANY: usize = 40;
/// Sizes whose rounding to blocks would wrap, and the last one whose would not.
const NEAR_2_64: [u64; 3] = [u64::MAX, u64::MAX - 14, u64::MAX - 15];

impl Generator {
    fn scopes(&self, wanted: impl Fn(u64) -> bool) -> Vec<u64> {
        (FIRST_SCOPE..AREAS).filter(|&s| wanted(s)).collect()
    }

    fn closed_scopes(&self) -> Vec<u64> {
        let state = &self.machine.state;
        self.scopes(|scope| state.area(scope).made && !state.is_open(scope))
    }

    /// Open scopes that the thread may enter.
    fn shared_scopes(&self, thread: u64) -> Vec<u64> {
        let state = &self.machine.state;
        if thread >= THREADS {
            return Vec::new();
        }
        let innermost = state.innermost_scope(thread);
        self.scopes(|scope| state.is_open(scope) && state.area(scope).parent == innermost)
    }

    pub(super) fn make(&mut self) -> Call {
        if let Some(removal) = self.make_room() {
            return removal;
        }
        let thread = self.thread();
        let area = if self.wild() {
            self.wild_area()
        } else {
            self.unmade_scope()
        };
        let size = self.scope_size();
        let op = Op::Make { area, size };
        Call { thread, op }
    }

    /// One that was removed more often than one that was never made, where scopes are made again.
    fn unmade_scope(&mut self) -> u64 {
        let state = &self.machine.state;
        let unmade = self.scopes(|scope| !state.area(scope).made);
        let removed = self.scopes(|scope| !state.area(scope).made && self.was_removed(scope));
        let again = match self.mood {
            Mood::Renew => 90,
            Mood::Fragment => 50,
            _ => 20,
        };
        let any = self.random.one_of(&unmade).unwrap_or(FIRST_SCOPE);
        if self.random.percent(again) {
            return self.random.one_of(&removed).unwrap_or(any);
        }
        any
    }

    fn was_removed(&self, scope: u64) -> bool {
        self.removed.contains_key(&scope)
    }

    fn wild_area(&mut self) -> u64 {
        match self.random.below(8) {
            0 => 64,
            1 => 0xffff,
            2 => self.random.below(0x1_0000),
            3 => self.random.below(FIRST_SCOPE),
            4 => AREAS + self.random.below(AREAS),
            _ => self.random.below(70),
        }
    }

    /// How many blocks each gap between used blocks has.
    fn gaps(&self) -> Vec<u64> {
        let used = &self.machine.state.used_blocks;
        let gaps = used.split(|&used| used).map(|gap| gap.len() as u64);
        gaps.filter(|&blocks| blocks > 0).collect()
    }

    fn longest_gap(&self) -> u64 {
        self.gaps().into_iter().max().unwrap_or(0)
    }

    fn scope_size(&mut self) -> u64 {
        if self.wild() {
            return self.wild_size();
        }
        if self.random.percent(self.mood.whole_blocks()) {
            return self.size_of_blocks();
        }
        let made = self.scopes(|scope| self.machine.state.area(scope).made);
        match self.random.below(100) {
            0..=39 => self.random.between(1, 12),
            _ if made.len() >= MANY => self.random.between(13, 30),
            40..=84 => self.random.between(13, 60),
            85..=97 => self.random.between(61, 130),
            _ => self.random.between(200, 1_500),
        }
    }

    /// A number of whole blocks, a word less or a word more.
    fn size_of_blocks(&mut self) -> u64 {
        let words = self.blocks() * BLOCK_WORDS;
        (words + self.random.below(3)).saturating_sub(1)
    }

    /// A few, many, as many as a gap has, or as many as are free in all.
    fn blocks(&mut self) -> u64 {
        let gaps = self.gaps();
        match (self.mood, self.random.below(20)) {
            (Mood::Renew, _) | (_, 0..=7) => self.random.between(1, 4),
            (_, 8..=12) => self.random.between(5, 40),
            (_, 13..=17) => self.random.one_of(&gaps).unwrap_or(1),
            _ => gaps.iter().sum(),
        }
    }

    /// Nothing, what fits exactly or a word more, and numbers whose rounding would wrap.
    fn wild_size(&mut self) -> u64 {
        let longest = self.longest_gap() * BLOCK_WORDS;
        let free = self.gaps().iter().sum::<u64>() * BLOCK_WORDS;
        match self.random.below(30) {
            0..=7 => 0,
            8..=12 => longest + 1,
            13..=17 => free + self.random.below(2),
            18 => longest,
            19..=21 => u64::MAX - self.random.below(20),
            22 | 23 => self.random.one_of(&NEAR_2_64).unwrap_or(0),
            24..=26 => self.random.word(),
            _ => 1 << self.random.between(13, 63),
        }
    }

    pub(super) fn enter(&mut self) -> Call {
        let thread = self.thread();
        let ordinary = self.kind(thread) == Some(Kind::Ordinary);
        if self.mood == Mood::Nest && !ordinary && self.closed_scopes().is_empty() {
            return self.make();
        }
        let area = if self.wild() {
            self.wild_area()
        } else {
            self.area_to_enter(thread)
        };
        let op = Op::Enter { area };
        Call { thread, op }
    }

    fn area_to_enter(&mut self, thread: u64) -> u64 {
        let [permanent, shared, made, closed] = self.mood.entries();
        let ordinary = self.kind(thread) == Some(Kind::Ordinary);
        let permanent = match (ordinary, self.mood, self.scopes_alone) {
            (true, _, _) => 60 * permanent,
            (_, Mood::Nest, true) => 0,
            _ => permanent,
        };
        let weights = [permanent, shared, made, closed];
        let areas = match self.random.weighted(&weights) {
            0 if ordinary && self.mood == Mood::Nest => vec![HEAP],
            0 if ordinary => vec![HEAP, IMMORTAL],
            0 => vec![HEAP, IMMORTAL, IMMORTAL],
            1 => self.shared_scopes(thread),
            2 => self.scopes(|scope| self.machine.state.area(scope).made),
            _ => self.scopes_to_open(),
        };
        let other = self.random.below(AREAS);
        let any = self.random.one_of(&self.closed_scopes());
        self.random.one_of(&areas).or(any).unwrap_or(other)
    }

    /// Closed scopes; the first of them alone where scopes are to be used again and again, and those
    /// that were removed alone where they are made again.
    fn scopes_to_open(&self) -> Vec<u64> {
        let mut closed = self.closed_scopes();
        match self.mood {
            Mood::Churn => closed.truncate(1),
            Mood::Renew if closed.iter().any(|&scope| self.was_removed(scope)) => {
                closed.retain(|&scope| self.was_removed(scope));
            }
            _ => {}
        }
        closed
    }

    pub(super) fn exit(&mut self) -> Call {
        let thread = self.thread_that(|state, thread| !state.thread(thread).stack.is_empty());
        let op = Op::Exit;
        Call { thread, op }
    }

    pub(super) fn remove(&mut self) -> Call {
        let thread = self.thread();
        let area = if self.wild() {
            self.wild_area()
        } else {
            self.area_to_remove()
        };
        let op = Op::Remove { area };
        Call { thread, op }
    }

    /// Mostly a closed scope, else an open one, one that is not made, or the heap or immortal.
    fn area_to_remove(&mut self) -> u64 {
        let state = &self.machine.state;
        let areas = match self.random.below(20) {
            0..=1 => self.scopes(|scope| state.is_open(scope)),
            2 => self.scopes(|scope| !state.area(scope).made),
            3 => vec![HEAP, IMMORTAL],
            _ => self.scopes_to_remove(),
        };
        let other = self.random.below(AREAS);
        let any = self.random.one_of(&self.closed_scopes());
        self.random.one_of(&areas).or(any).unwrap_or(other)
    }

    /// Closed scopes; where scopes are made again, the first few of those that were entered.
    fn scopes_to_remove(&self) -> Vec<u64> {
        let mut closed = self.closed_scopes();
        if self.mood == Mood::Renew {
            let state = &self.machine.state;
            closed.retain(|&scope| state.area(scope).generation > 0);
            closed.truncate(3);
        }
        closed
    }

    /// Mostly the largest closed scope is removed where scratch is crowded.
    fn make_room(&mut self) -> Option<Call> {
        let least = match self.mood {
            Mood::Fragment => 1,
            _ => CROWDED,
        };
        if self.longest_gap() >= least || self.random.percent(40) {
            return None;
        }
        let state = &self.machine.state;
        let closed = self.closed_scopes().into_iter();
        let area = closed.max_by_key(|&scope| state.area(scope).size)?;
        let op = Op::Remove { area };
        let thread = self.thread();
        Some(Call { thread, op })
    }
}
