//! What happened over a list: the threads with their stacks, the scopes with their makings and used
//! words, and the refused calls, each by the columns that it lasts.
//!
//! The second implementation runs the calls beside the answers, and what changed in its state from
//! call to call is the timeline. Where an answer is another than its own, there is no timeline.

use std::collections::BTreeMap;

use reference::answer::Answer;
use reference::frame;
use reference::machine::Machine;
use reference::rights::Kind;
use reference::state::{Area, State, AREAS, FIRST_SCOPE, THREADS};

use crate::answers::Exchange;
use crate::words;

/// From a column on, to another or to the end of the list. The call of a list's line n is column
/// n - 1.
#[derive(Clone, Copy, Debug, PartialEq, Eq)]
pub struct Span {
    pub from: usize,
    pub to: Option<usize>,
}

/// A thread from its start to its end; a helper has its starter.
#[derive(Debug)]
pub struct Life {
    pub kind: Kind,
    pub starter: Option<u64>,
    pub span: Span,
}

/// An entry on a thread's stack; the lowest has place 0.
#[derive(Debug)]
pub struct Entry {
    pub area: u64,
    pub place: usize,
    pub span: Span,
}

/// A call by its column, with its status.
#[derive(Clone, Copy, Debug)]
pub struct Mark {
    pub column: usize,
    pub status: u64,
}

#[derive(Debug, Default)]
pub struct ThreadLane {
    pub lives: Vec<Life>,
    pub entries: Vec<Entry>,
    pub marks: Vec<Mark>,
}

/// A scope from the entry that opens it to the exit that empties it. The used words are those from
/// each column on.
#[derive(Debug)]
pub struct Opening {
    pub generation: u64,
    pub parent: Option<u64>,
    pub span: Span,
    pub used: Vec<(usize, u64)>,
}

/// A scope from its making to its removal: its size, its first word in scratch, its openings.
#[derive(Debug)]
pub struct Making {
    pub size: u64,
    pub start: u64,
    pub span: Span,
    pub openings: Vec<Opening>,
}

#[derive(Debug, Default)]
pub struct ScopeLane {
    pub makings: Vec<Making>,
}

#[derive(Debug, Default)]
pub struct Timeline {
    pub columns: usize,
    /// The threads that occur, as callers or by the state.
    pub threads: BTreeMap<u64, ThreadLane>,
    /// The scopes that are ever made.
    pub scopes: BTreeMap<u64, ScopeLane>,
    /// The lines that are no frame.
    pub no_frames: Vec<Mark>,
}

/// The timeline of a list with its answers.
pub fn follow(exchanges: &[Exchange]) -> Result<Timeline, String> {
    let mut machine = Machine::for_frames();
    let mut timeline = Timeline::default();
    for exchange in exchanges {
        let before = machine.state.clone();
        let expected = frame::answer_line(&mut machine, exchange.line);
        if expected != exchange.answer {
            return Err(disagreement(timeline.columns + 1, exchange, expected));
        }
        timeline.add(exchange, &before, &machine.state);
    }
    Ok(timeline)
}

fn disagreement(line: usize, exchange: &Exchange, expected: Answer) -> String {
    let given = words::of_exchange(exchange);
    let expected = words::of_answer(exchange.call, expected);
    format!("line {line}: {given}, but the second implementation answers: {expected}")
}

impl Timeline {
    /// Adds the next column.
    fn add(&mut self, exchange: &Exchange, before: &State, after: &State) {
        self.mark(exchange);
        let caller = exchange.call.map(|call| call.thread);
        for thread in 0..THREADS {
            let starter = caller.filter(|&caller| caller != thread);
            self.note_life(thread, starter, before, after);
            self.note_stack(thread, before, after);
        }
        for scope in FIRST_SCOPE..AREAS {
            self.note_making(scope, before, after);
            self.note_opening(scope, before.area(scope), after.area(scope));
        }
        self.columns += 1;
    }

    fn mark(&mut self, exchange: &Exchange) {
        let (column, status) = (self.columns, exchange.answer.status);
        let marks = match exchange.call {
            Some(call) => &mut self.thread(call.thread).marks,
            None => &mut self.no_frames,
        };
        marks.push(Mark { column, status });
    }

    fn thread(&mut self, thread: u64) -> &mut ThreadLane {
        self.threads.entry(thread).or_default()
    }

    /// From this column on.
    fn open_span(&self) -> Span {
        let from = self.columns;
        Span { from, to: None }
    }

    /// A life that begins has the starter, if the call is another thread's.
    fn note_life(&mut self, thread: u64, starter: Option<u64>, before: &State, after: &State) {
        let (before, after) = (before.thread(thread).kind, after.thread(thread).kind);
        if before == after {
            return;
        }
        let (column, span) = (self.columns, self.open_span());
        let lives = &mut self.thread(thread).lives;
        if let Some(life) = lives.last_mut().filter(|_| before.is_some()) {
            life.span.to = Some(column);
        }
        if let Some(kind) = after {
            lives.push(Life {
                kind,
                starter,
                span,
            });
        }
    }

    /// The entries that both stacks begin with stay; those above are gone or new.
    fn note_stack(&mut self, thread: u64, before: &State, after: &State) {
        let (before, after) = (&before.thread(thread).stack, &after.thread(thread).stack);
        let pairs = before.iter().zip(after);
        let kept = pairs.take_while(|(old, new)| old == new).count();
        if kept == before.len() && kept == after.len() {
            return;
        }
        let (column, span) = (self.columns, self.open_span());
        let entries = &mut self.thread(thread).entries;
        for entry in entries.iter_mut() {
            if entry.span.to.is_none() && entry.place >= kept {
                entry.span.to = Some(column);
            }
        }
        for (place, &area) in after.iter().enumerate().skip(kept) {
            entries.push(Entry { area, place, span });
        }
    }

    fn note_making(&mut self, scope: u64, before: &State, after: &State) {
        match (before.area(scope).made, after.area(scope).made) {
            (false, true) => self.make_scope(scope, after),
            (true, false) => self.remove_scope(scope),
            _ => {}
        }
    }

    fn make_scope(&mut self, scope: u64, state: &State) {
        let area = state.area(scope);
        let making = Making {
            size: area.size,
            start: area.first - state.lengths.permanent,
            span: self.open_span(),
            openings: Vec::new(),
        };
        self.scopes.entry(scope).or_default().makings.push(making);
    }

    /// The making that a scope is in.
    fn last_making(&mut self, scope: u64) -> &mut Making {
        let lane = self.scopes.get_mut(&scope);
        let last = lane.and_then(|lane| lane.makings.last_mut());
        last.expect("a scope that is there was made")
    }

    fn remove_scope(&mut self, scope: u64) {
        let column = self.columns;
        self.last_making(scope).span.to = Some(column);
    }

    fn note_opening(&mut self, scope: u64, before: &Area, after: &Area) {
        if before == after {
            return;
        }
        let (was_open, is_open) = (before.count > 0, after.count > 0);
        match (was_open, is_open) {
            (false, true) => self.open_scope(scope, after),
            (true, true) => self.note_used(scope, after.used),
            (true, false) => self.close_scope(scope),
            (false, false) => {}
        }
    }

    fn open_scope(&mut self, scope: u64, area: &Area) {
        let opening = Opening {
            generation: area.generation,
            parent: area.parent,
            span: self.open_span(),
            used: vec![(self.columns, area.used)],
        };
        self.last_making(scope).openings.push(opening);
    }

    /// The opening that a scope is in.
    fn last_opening(&mut self, scope: u64) -> &mut Opening {
        let last = self.last_making(scope).openings.last_mut();
        last.expect("an open scope was opened")
    }

    fn note_used(&mut self, scope: u64, used: u64) {
        let column = self.columns;
        let steps = &mut self.last_opening(scope).used;
        if steps.last().map(|&(_, words)| words) != Some(used) {
            steps.push((column, used));
        }
    }

    fn close_scope(&mut self, scope: u64) {
        let column = self.columns;
        self.last_opening(scope).span.to = Some(column);
    }
}

impl Timeline {
    /// Every line of the list: each is one call of a thread, or no frame.
    pub fn marks(&self) -> impl Iterator<Item = &Mark> {
        let threads = self.threads.values().flat_map(|lane| &lane.marks);
        threads.chain(&self.no_frames)
    }

    /// Whether a thread is ever a helper.
    pub fn has_helpers(&self) -> bool {
        let mut lives = self.threads.values().flat_map(|lane| &lane.lives);
        lives.any(|life| life.starter.is_some())
    }

    /// Whether a scope ever has a parent.
    pub fn has_parents(&self) -> bool {
        let mut openings = self.scopes.values().flat_map(ScopeLane::openings);
        openings.any(|opening| opening.parent.is_some())
    }

    /// Whether a scope is ever removed.
    pub fn has_removals(&self) -> bool {
        let mut removals = self.scopes.values().flat_map(ScopeLane::removals);
        removals.next().is_some()
    }
}

impl ScopeLane {
    pub fn openings(&self) -> impl Iterator<Item = &Opening> {
        self.makings.iter().flat_map(|making| &making.openings)
    }

    /// From each removal to the next making, or to the end of the list.
    pub fn removals(&self) -> impl Iterator<Item = Span> + '_ {
        let makings = self.makings.iter().skip(1);
        let ends = makings.map(|making| Some(making.span.from)).chain([None]);
        let removed = self.makings.iter().map(|making| making.span.to);
        removed
            .zip(ends)
            .filter_map(|(from, to)| Some(Span { from: from?, to }))
    }
}

impl Opening {
    /// The used words from each change of them to the next, and to the end of the opening.
    pub fn steps(&self) -> impl Iterator<Item = (Span, u64)> + '_ {
        let changes = self.used.iter().skip(1).map(|&(column, _)| Some(column));
        let ends = changes.chain([self.span.to]);
        let starts = self.used.iter();
        starts
            .zip(ends)
            .map(|(&(from, used), to)| (Span { from, to }, used))
    }
}

impl ThreadLane {
    /// The most entries that its stack has.
    pub fn height(&self) -> usize {
        let places = self.entries.iter().map(|entry| entry.place + 1);
        places.max().unwrap_or(0)
    }
}
