//! Calls that start and end threads, and the choice of a thread.

use super::{Generator, TRIES};
use crate::calls::{Call, Op};
use crate::rights::Kind;
use crate::state::{State, STACK_ENTRIES, THREADS};

impl Generator {
    pub(super) fn started(&self) -> Vec<u64> {
        let state = &self.machine.state;
        let started = |&thread: &u64| state.thread(thread).kind.is_some();
        (0..THREADS).filter(started).collect()
    }

    /// The kind of a started thread.
    pub(super) fn kind(&self, thread: u64) -> Option<Kind> {
        let threads = &self.machine.state.threads;
        threads.get(thread as usize)?.kind
    }

    /// A started thread, if there is one, mostly one that may enter scopes.
    pub(super) fn any_thread(&mut self) -> u64 {
        let mut threads = self.started();
        if self.random.percent(75) {
            let state = &self.machine.state;
            threads.retain(|&thread| state.thread(thread).kind != Some(Kind::Ordinary));
        }
        self.random.one_of(&threads).unwrap_or(0)
    }

    pub(super) fn thread(&mut self) -> u64 {
        if self.random.percent(self.mood.wildness() / 2) {
            return self.wild_thread();
        }
        if self.random.percent(self.mood.focus()) {
            return self.focus;
        }
        self.any_thread()
    }

    /// A thread that fits, or after some tries any thread.
    pub(super) fn thread_that(&mut self, fits: impl Fn(&State, u64) -> bool) -> u64 {
        for _ in 0..TRIES / 2 {
            let thread = self.thread();
            if thread >= THREADS || fits(&self.machine.state, thread) {
                return thread;
            }
        }
        self.thread()
    }

    fn wild_thread(&mut self) -> u64 {
        match self.random.below(6) {
            0 => 16,
            1 => 255,
            2 => self.random.below(256),
            _ => self.random.below(THREADS),
        }
    }

    pub(super) fn start(&mut self) -> Call {
        let thread = if self.wild() {
            self.wild_thread()
        } else {
            self.unstarted_thread()
        };
        let kind = self.kind_to_start(&[1, 2, 2, 2, 2, 2, 3, 3]);
        let op = Op::Start { kind };
        Call { thread, op }
    }

    /// Where every thread is started, mostly one is led out instead.
    pub(super) fn start_helper(&mut self) -> Call {
        if self.started().len() == THREADS as usize && self.random.percent(80) {
            return self.lead_out();
        }
        let thread = self.starter();
        let helper = if self.wild() {
            self.wild_helper(thread)
        } else {
            self.unstarted_thread()
        };
        let kind = self.kind_to_start(&[1, 2, 2, 3]);
        let op = Op::StartHelper { kind, helper };
        Call { thread, op }
    }

    /// The thread with the fewest entries leaves, or ends.
    fn lead_out(&self) -> Call {
        let state = &self.machine.state;
        let entries = |&thread: &u64| state.thread(thread).stack.len();
        let thread = self.started().into_iter().min_by_key(entries).unwrap_or(0);
        let op = match entries(&thread) {
            0 => Op::End,
            _ => Op::Exit,
        };
        Call { thread, op }
    }

    /// Mostly a thread with entries, often one whose stack is full.
    fn starter(&mut self) -> u64 {
        let mut full = self.started();
        let state = &self.machine.state;
        full.retain(|&thread| state.thread(thread).stack.len() == STACK_ENTRIES);
        let full = self.random.one_of(&full);
        match (self.random.below(10), full) {
            (0, _) => self.thread(),
            (1..=4, Some(thread)) => thread,
            _ => self.thread_that(|state, thread| !state.thread(thread).stack.is_empty()),
        }
    }

    /// The starter itself, a started thread, and numbers as large as a frame's q.
    fn wild_helper(&mut self, starter: u64) -> u64 {
        match self.random.below(6) {
            0 => starter,
            1 => self.any_thread(),
            2 => self.random.below(0x1_0000),
            3 => self.random.below(THREADS) + (THREADS << self.random.below(12)),
            _ => self.wild_thread(),
        }
    }

    /// Mostly one of these kinds.
    fn kind_to_start(&mut self, kinds: &[u64]) -> u64 {
        if self.wild() {
            return self.wild_kind();
        }
        self.random.one_of(kinds).unwrap_or(2)
    }

    /// Low numbers first, so that the threads of a list are few enough to meet.
    fn unstarted_thread(&mut self) -> u64 {
        let bound = if self.random.percent(25) { THREADS } else { 5 };
        let first = self.random.below(bound);
        let state = &self.machine.state;
        let free = |&thread: &u64| state.thread(thread).kind.is_none();
        (first..THREADS).find(free).unwrap_or(first)
    }

    fn wild_kind(&mut self) -> u64 {
        match self.random.below(5) {
            0 => 0,
            1 => 4,
            2 => u64::MAX,
            3 => self.random.between(1, 3) << self.random.between(8, 60),
            _ => self.random.word(),
        }
    }

    pub(super) fn end(&mut self) -> Call {
        let mut threads = self.started();
        if self.random.percent(70) {
            let state = &self.machine.state;
            threads.retain(|&thread| state.thread(thread).stack.is_empty());
        }
        let wild = self.wild_thread();
        let thread = self.random.one_of(&threads).unwrap_or(wild);
        let op = Op::End;
        Call { thread, op }
    }
}
