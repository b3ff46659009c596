//! Lists of lines from a seed. The generator runs the machine as it goes, so that most frames mean
//! something to the machine that will read them.

mod loads;
mod objects;
mod scopes;
mod threads;

pub use loads::{steps, Step};

use std::collections::{BTreeMap, BTreeSet};

use crate::answer::Answer;
use crate::calls::{Call, Op};
use crate::frame;
use crate::layout::Handle;
use crate::machine::Machine;
use crate::mood::Mood;
use crate::random::Random;
use crate::spoil::spoil;
use crate::state::is_scope;

/// How many objects and used places the generator remembers.
const REMEMBERED: usize = 400;
/// How often it looks for an object that fits before it takes any.
const TRIES: u64 = 12;

/// An object that an allocation gave, live or not.
#[derive(Clone, Copy, Debug)]
struct Known {
    handle: u64,
    slots: u64,
    data: u64,
}

impl Known {
    fn in_scope(&self) -> bool {
        is_scope(Handle::unpack(self.handle).area)
    }
}

/// Nothing is known of the object of a handle that was made up.
fn made_up(handle: u64) -> Known {
    let (slots, data) = (1, 1);
    Known {
        handle,
        slots,
        data,
    }
}

pub struct Generator {
    random: Random,
    machine: Machine,
    mood: Mood,
    lines_left: u64,
    /// The thread that a mood is about, and whether it enters scopes alone.
    focus: u64,
    scopes_alone: bool,
    known: Vec<Known>,
    /// Slots that a reference was stored in, and data words that were written.
    stored: Vec<(u64, u64)>,
    written: Vec<(u64, u64)>,
    /// The numbers of words that were ever written, whatever object lay there.
    ever_written: BTreeSet<u64>,
    /// The generation that each scope had when it was last removed.
    removed: BTreeMap<u64, u64>,
    /// A call that is to follow the last one.
    next: Option<Call>,
}

/// A list of `count` lines. The last line feed is missing now and then.
pub fn list(seed: u64, count: u64) -> Vec<u8> {
    let mut generator = Generator::new(seed);
    let mut list = Vec::new();
    let mut last_is_empty = true;
    for _ in 0..count {
        let line = generator.line();
        last_is_empty = line.is_empty();
        list.extend(line);
        list.push(b'\n');
    }
    if !last_is_empty && generator.random.percent(30) {
        list.pop();
    }
    list
}

impl Generator {
    pub fn new(seed: u64) -> Generator {
        let mut random = Random::new(seed);
        let lines_left = random.between(8, 25);
        Generator {
            random,
            machine: Machine::for_frames(),
            mood: Mood::Gather,
            lines_left,
            focus: 0,
            scopes_alone: false,
            known: Vec::new(),
            stored: Vec::new(),
            written: Vec::new(),
            ever_written: BTreeSet::new(),
            removed: BTreeMap::new(),
            next: None,
        }
    }

    /// The next line, without its line feed.
    pub fn line(&mut self) -> Vec<u8> {
        self.follow_mood();
        let call = self.call();
        let line = frame::print(call);
        if self.random.percent(self.mood.noise()) {
            return spoil(&mut self.random, &line);
        }
        self.run(call);
        line
    }

    fn run(&mut self, call: Call) {
        let answer = self.machine.run(call);
        self.remember(call, answer);
    }

    fn follow_mood(&mut self) {
        if self.lines_left == 0 {
            self.mood = Mood::any(&mut self.random);
            self.lines_left = self.mood.lines(&mut self.random);
            self.focus = self.any_thread();
            self.scopes_alone = self.random.percent(50);
        }
        self.lines_left -= 1;
    }

    fn remember(&mut self, call: Call, answer: Answer) {
        if !answer.is_accepted() {
            return;
        }
        match call.op {
            Op::Allocate { slots, data } => {
                let handle = answer.value;
                let known = Known {
                    handle,
                    slots,
                    data,
                };
                keep(&mut self.random, &mut self.known, known);
                if self.random.percent(self.mood.follow_ups()) {
                    self.next = self.use_last_word(call.thread, known);
                }
            }
            Op::Store { object, slot, .. } => {
                keep(&mut self.random, &mut self.stored, (object, slot));
            }
            Op::Write { object, index, .. } => {
                keep(&mut self.random, &mut self.written, (object, index));
                let number = self.machine.data_word(object, index);
                self.ever_written.extend(number);
            }
            Op::Remove { area } => {
                let generation = self.machine.state.area(area).generation;
                self.removed.insert(area, generation);
            }
            _ => {}
        }
    }

    fn call(&mut self) -> Call {
        if let Some(call) = self.next.take() {
            return call;
        }
        if self.started().is_empty() && self.random.percent(80) {
            return self.start();
        }
        match self.random.weighted(&self.mood.weights()) {
            0 => self.start(),
            1 => self.end(),
            2 => self.make(),
            3 => self.enter(),
            4 => self.exit(),
            5 => self.allocate(),
            6 => self.store(),
            7 => self.load(),
            8 => self.write(),
            9 => self.read(),
            10 => self.start_helper(),
            _ => self.remove(),
        }
    }

    /// Whether the next argument is taken at random.
    fn wild(&mut self) -> bool {
        self.random.percent(self.mood.wildness())
    }
}

/// Remembers an item as the last one, in place of a random one where there are enough.
fn keep<T>(random: &mut Random, items: &mut Vec<T>, item: T) {
    if items.len() >= REMEMBERED {
        items.remove(random.below(REMEMBERED as u64) as usize);
    }
    items.push(item);
}
