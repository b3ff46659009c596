//! The book of "The list of the third demand": it is fed calls and answers alone and never looks
//! at the state or at the lent words.

use std::collections::BTreeMap;

use crate::answer::Answer;
use crate::calls::{Call, Op};
use crate::rights::Kind;
use crate::state::{is_scope, AREAS, FIRST_SCOPE, HEAP, THREADS};

/// An object made. "An object is live until it is gone".
#[derive(Clone, Debug, PartialEq, Eq)]
pub struct MadeObject {
    pub handle: u64,
    pub slots: u64,
    /// Its data words as last written, none where nobody wrote since it was made.
    pub words: Vec<Option<u64>>,
    pub area: u64,
    pub gone: bool,
    /// The number of the call that made it.
    pub made_at: u64,
}

impl MadeObject {
    /// How many data words it has.
    pub fn data(&self) -> u64 {
        self.words.len() as u64
    }
}

#[derive(Clone, Debug)]
pub struct History {
    /// "a row of areas for each started thread"
    pub rows: Vec<Option<Vec<u64>>>,
    /// "a parent for each open scope", none for the primordial scope
    pub parents: BTreeMap<u64, Option<u64>>,
    /// The size of each made scope as asked, 0 for any other area.
    pub sizes: Vec<u64>,
    /// "the objects made"
    pub objects: Vec<MadeObject>,
    /// The kinds that started threads were given, for the rights.
    pub kinds: Vec<Option<Kind>>,
    /// For each area the number of the last call after which no thread stood in it.
    pub last_empty: Vec<u64>,
    pub calls: u64,
}

impl History {
    /// "is empty at set-up"
    pub fn new() -> History {
        History {
            rows: vec![None; THREADS as usize],
            parents: BTreeMap::new(),
            sizes: vec![0; AREAS as usize],
            objects: Vec::new(),
            kinds: vec![None; THREADS as usize],
            last_empty: vec![0; AREAS as usize],
            calls: 0,
        }
    }

    pub fn step(&mut self, call: Call, answer: Answer) {
        self.calls += 1;
        if answer.is_accepted() {
            self.accepted(call, answer.value);
        }
        self.note_empty_scopes();
    }

    /// "An accepted call does this"; "The rest, and any refused call, change nothing."
    fn accepted(&mut self, call: Call, value: u64) {
        let thread = call.thread as usize;
        match call.op {
            Op::Start { kind } => self.start(thread, kind),
            Op::End => self.end(thread),
            Op::Make { area, size } => self.sizes[area as usize] = size,
            Op::Enter { area } => self.enter(thread, area),
            Op::Exit => self.exit(thread),
            Op::Allocate { slots, data } => self.allocate(thread, value, slots, data),
            Op::Write {
                object,
                index,
                word,
            } => self.write(object, index, word),
            Op::StartHelper { kind, helper } => self.start_helper(thread, helper as usize, kind),
            Op::Remove { area } => self.sizes[area as usize] = 0,
            _ => {}
        }
    }

    /// "01 gives the thread an empty row"
    fn start(&mut self, thread: usize, kind: u64) {
        self.rows[thread] = Some(Vec::new());
        self.kinds[thread] = Kind::from_number(kind);
    }

    /// "02 takes it away"
    fn end(&mut self, thread: usize) {
        self.rows[thread] = None;
        self.kinds[thread] = None;
    }

    /// "where q is a scope on no row, its parent becomes the innermost scope of the thread's row,
    /// or none. Then q goes on top of that row."
    fn enter(&mut self, thread: usize, area: u64) {
        if is_scope(area) && !self.is_open(area) {
            let innermost = self.innermost(thread);
            self.parents.insert(area, innermost);
        }
        self.row_mut(thread).push(area);
    }

    /// "takes the top off. If that leaves a scope on no row, it has no parent and its objects are
    /// gone."
    fn exit(&mut self, thread: usize) {
        let top = self.row_mut(thread).pop();
        let top = top.expect("an exit was accepted with nothing on the row");
        if is_scope(top) && !self.is_open(top) {
            self.parents.remove(&top);
            self.lose_objects(top);
        }
    }

    fn lose_objects(&mut self, area: u64) {
        for object in &mut self.objects {
            if object.area == area {
                object.gone = true;
            }
        }
    }

    /// "its handle is the value, it has q slots, its area is the row's top, or the heap if the row
    /// is empty"
    fn allocate(&mut self, thread: usize, handle: u64, slots: u64, data: u64) {
        let area = self.row_mut(thread).last().copied().unwrap_or(HEAP);
        self.objects.push(MadeObject {
            handle,
            slots,
            words: vec![None; data as usize],
            area,
            gone: false,
            made_at: self.calls,
        });
    }

    /// What a read of this word must yield from now on.
    fn write(&mut self, handle: u64, index: u64, word: u64) {
        let mut live = self.objects.iter_mut().filter(|object| !object.gone);
        let object = live.find(|object| object.handle == handle);
        let object = object.expect("a write was accepted for a handle that is not live");
        object.words[index as usize] = Some(word);
    }

    /// 0b: "The new thread receives the same entries".
    fn start_helper(&mut self, starter: usize, helper: usize, kind: u64) {
        self.start(helper, kind);
        *self.row_mut(helper) = self.row_mut(starter).clone();
    }

    fn row_mut(&mut self, thread: usize) -> &mut Vec<u64> {
        let row = self.rows[thread].as_mut();
        row.expect("a call was accepted for a thread that is not started")
    }

    fn innermost(&self, thread: usize) -> Option<u64> {
        let row = self.rows[thread].as_ref()?;
        row.iter().rev().copied().find(|&area| is_scope(area))
    }

    /// "by the list of calls alone, has never been empty of threads since": kept apart from `gone`.
    fn note_empty_scopes(&mut self) {
        for scope in FIRST_SCOPE..AREAS {
            if !self.is_open(scope) {
                self.last_empty[scope as usize] = self.calls;
            }
        }
    }

    /// "Open means on some row."
    pub fn is_open(&self, scope: u64) -> bool {
        self.rows.iter().flatten().any(|row| row.contains(&scope))
    }

    /// Whether an area is a scope that was made and not removed since.
    pub fn is_made_scope(&self, area: u64) -> bool {
        let size = self.sizes.get(area as usize);
        is_scope(area) && size.is_some_and(|&size| size > 0)
    }

    /// How many entries an area has on all rows.
    pub fn entries(&self, area: u64) -> u64 {
        let all = self.rows.iter().flatten().flatten();
        all.filter(|&&entry| entry == area).count() as u64
    }

    pub fn open_scopes(&self) -> Vec<u64> {
        (FIRST_SCOPE..AREAS).filter(|&s| self.is_open(s)).collect()
    }

    /// "it meets the scope itself and then its ancestors, the outermost last"
    pub fn walk(&self, scope: u64) -> Vec<u64> {
        let start = Some(scope).filter(|&scope| is_scope(scope));
        let parent = |&scope: &u64| self.parents.get(&scope).copied().flatten();
        let met = std::iter::successors(start, parent);
        met.take(AREAS as usize).collect()
    }

    pub fn live_objects(&self) -> impl Iterator<Item = &MadeObject> {
        self.objects.iter().filter(|object| !object.gone)
    }

    /// The live object with a handle.
    pub fn live_object(&self, handle: u64) -> Option<&MadeObject> {
        self.live_objects().find(|object| object.handle == handle)
    }

    /// "never been empty of threads since that object was made"
    pub fn held_since_made(&self, object: &MadeObject) -> bool {
        !is_scope(object.area) || self.last_empty[object.area as usize] < object.made_at
    }
}

impl Default for History {
    fn default() -> History {
        History::new()
    }
}
