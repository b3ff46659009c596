//! Runs a list of calls with every claim of the third demand tried after each of them.

use crate::answer::{Answer, Refusal};
use crate::calls::{Call, Op};
use crate::claims::{self, Claim};
use crate::frame;
use crate::generator::Step;
use crate::history::{History, MadeObject};
use crate::loads::Loads;
use crate::machine::Machine;
use crate::memory::{Lengths, Memory};
use crate::random::Random;
use crate::state::AREAS;
use crate::texts::Text;
use crate::values::Values;

/// Sizes of a set-up: heap, immortal, scratch.
pub type Sizes = (u64, u64, u64);

/// The frame reader's sizes.
pub const FRAME_SIZES: Sizes = (1_024, 1_024, 4_096);

/// A machine on lent words of any contents, its book, and the same machine on zeroed words.
pub struct Trial {
    pub machine: Machine,
    pub zeroed: Machine,
    pub history: History,
    pub loads: Loads,
    values: Values,
    random: Random,
}

impl Trial {
    pub fn new(seed: u64, sizes: Sizes) -> Trial {
        let mut random = Random::new(!seed);
        let (heap, immortal, scratch) = sizes;
        let lengths = Lengths::with_maps(heap + immortal, scratch);
        let supplied = any_contents(&mut random, lengths);
        Trial {
            machine: Machine::over(heap, immortal, supplied),
            zeroed: Machine::zeroed(heap, immortal, scratch),
            history: History::new(),
            loads: Loads::default(),
            values: Values::default(),
            random,
        }
    }

    /// One call of the list, with the calls that stand beside it, and every claim after it.
    pub fn call(&mut self, call: Call) -> Claim {
        let before = self.machine.clone();
        let answer = self.machine.run(call);
        self.value_is_told(call, answer)?;
        self.answer_is_told(call, answer)?;
        self.values.step(&self.history, call, answer);
        self.history.step(call, answer);
        self.same_on_zeroed_words(call, answer)?;
        self.answer_is_allowed(call, answer)?;
        self.changes_are_allowed(&before, call, answer)?;
        self.claims_hold(&before)?;
        self.beside(call)
    }

    /// One load of the list, and every claim after it. Its step in the book changes nothing.
    pub fn load_rights(&mut self, text: Text) -> Claim {
        let before = self.machine.clone();
        let answer = self.machine.state.load_rights(text.bytes());
        let other = self.zeroed.state.load_rights(text.bytes());
        self.loads.step(&self.history, text, answer);
        same_answers(answer, other)?;
        self.table_alone_changes(&before, answer)?;
        self.claims_hold(&before)
    }

    fn claims_hold(&mut self, before: &Machine) -> Claim {
        claims::hold(&self.machine, &self.history)?;
        claims::loads_hold(&self.machine, &self.loads)?;
        if self.machine != *before {
            claims::neighbours_are_exact(&self.machine, &self.history, &mut self.random)?;
        }
        Ok(())
    }

    /// "the lent words may hold anything": no answer shows a word that no call wrote.
    fn same_on_zeroed_words(&mut self, call: Call, answer: Answer) -> Claim {
        let other = self.zeroed.run(call);
        same_answers(answer, other)
    }

    /// The value of an accepted load, entry or exit is the one that the calls before it tell.
    fn value_is_told(&self, call: Call, answer: Answer) -> Claim {
        match self.values.expected(&self.history, call) {
            Some(value) if answer.is_accepted() && answer.value != value => Err(format!(
                "{:x} is yielded, the list tells {value:x}",
                answer.value
            )),
            _ => Ok(()),
        }
    }

    /// A read, a start of a helper and a removal answer by the calls before them alone.
    fn answer_is_told(&self, call: Call, answer: Answer) -> Claim {
        let table = self.loads.table();
        claims::read_is_exact(&self.history, &table, call, answer)?;
        claims::helper_is_exact(&self.history, &table, call, answer)?;
        claims::removal_is_exact(&self.history, call, answer)
    }

    /// "No op 08 in it yields 15." "a refusal and 0".
    fn answer_is_allowed(&self, call: Call, answer: Answer) -> Claim {
        let loaded = matches!(call.op, Op::Load { .. });
        if loaded && answer.status == Refusal::Target as u64 {
            return Err("op 08 yields 15".into());
        }
        if !answer.is_accepted() && answer.value != 0 {
            return Err(format!("a refusal yields {:x}", answer.value));
        }
        Ok(())
    }

    /// "A refusal ... alters no state and no lent word"; an accepted call alters what it may.
    fn changes_are_allowed(&self, before: &Machine, call: Call, answer: Answer) -> Claim {
        let allowed = if answer.is_accepted() {
            changed_by(call.op)
        } else {
            &[]
        };
        let changed = changes(before, &self.machine);
        match changed.iter().find(|part| !allowed.contains(part)) {
            Some(part) => Err(format!("the {part} changed")),
            None => Ok(()),
        }
    }

    /// A load changes the table in force and nothing else; "A refused load leaves the old table."
    fn table_alone_changes(&self, before: &Machine, answer: Answer) -> Claim {
        let mut expected = before.clone();
        if answer.is_accepted() {
            expected.state.rights = self.machine.state.rights;
        }
        if self.machine != expected {
            return Err(format!("{answer:?}, and more than the table changed"));
        }
        Ok(())
    }

    /// The calls of the list that frames cannot make: with other lengths, and the shown part; a read
    /// of any word; and, by a copy, a start of a helper and a removal.
    fn beside(&mut self, call: Call) -> Claim {
        let before = self.machine.clone();
        self.refused_by_lengths(call)?;
        let word = self.any_handle();
        let thread = self.random.below(18);
        let table = self.loads.table();
        claims::view_is_exact(&self.machine, &self.history, &table, thread, word)?;
        self.read_beside(thread, word)?;
        self.helper_beside(thread)?;
        self.removal_beside(thread)?;
        if self.machine != before {
            return Err("a call beside the list changed something".into());
        }
        Ok(())
    }

    /// A read of any data word, or past them.
    fn read_beside(&mut self, thread: u64, object: u64) -> Claim {
        let made = self.history.live_object(object);
        let index = self.random.below(made.map_or(0, MadeObject::data) + 2);
        let op = Op::Read { object, index };
        let call = Call { thread, op };
        let answer = self.machine.run(call);
        self.answer_is_told(call, answer)
    }

    /// A start of any helper, of no kind too.
    fn helper_beside(&mut self, thread: u64) -> Claim {
        let (kind, helper) = (self.random.below(5), self.random.below(18));
        self.told_by_a_copy(thread, Op::StartHelper { kind, helper })
    }

    /// A removal of any area, and of numbers that are none.
    fn removal_beside(&mut self, thread: u64) -> Claim {
        let area = self.random.below(AREAS + 4);
        self.told_by_a_copy(thread, Op::Remove { area })
    }

    fn told_by_a_copy(&self, thread: u64, op: Op) -> Claim {
        let call = Call { thread, op };
        let answer = self.machine.clone().run(call);
        self.answer_is_told(call, answer)
    }

    /// Refusal 1, with one buffer a word shorter or longer.
    fn refused_by_lengths(&mut self, call: Call) -> Claim {
        let mut supplied = self.machine.supplied.clone();
        let buffer = match self.random.below(4) {
            0 => &mut supplied.permanent,
            1 => &mut supplied.scratch,
            2 => &mut supplied.start_map,
            _ => &mut supplied.written,
        };
        if self.random.percent(50) || buffer.pop().is_none() {
            buffer.push(self.random.word());
        }
        let kept = supplied.clone();
        let answer = self.machine.state.run(&mut supplied, call);
        if answer != Answer::refused(Refusal::Lengths) || supplied != kept {
            return Err(format!("{answer:?} with lengths {:?}", supplied.lengths()));
        }
        Ok(())
    }

    /// A handle given so far, live or not, or a number one bit beside it.
    fn any_handle(&mut self) -> u64 {
        let given: Vec<u64> = self.history.objects.iter().map(|o| o.handle).collect();
        let word = self.random.one_of(&given).unwrap_or(0);
        if self.random.percent(30) {
            return word ^ (1 << self.random.below(64));
        }
        word
    }
}

/// Words of any contents: small ones that look like headers among random ones.
fn any_contents(random: &mut Random, lengths: Lengths) -> Memory {
    let mut supplied = Memory::zeroed(lengths);
    for word in supplied.permanent.iter_mut().chain(&mut supplied.scratch) {
        *word = random.word() >> random.below(64);
    }
    for word in supplied.start_map.iter_mut().chain(&mut supplied.written) {
        *word = random.word() | random.word();
    }
    supplied
}

/// What an accepted call of an op may change.
fn changed_by(op: Op) -> &'static [&'static str] {
    match op {
        Op::Allocate { .. } => &["state", "stores", "start map", "written map"],
        Op::Store { .. } => &["stores"],
        Op::Write { .. } => &["stores", "written map"],
        Op::Load { .. } | Op::Read { .. } => &[],
        _ => &["state"],
    }
}

/// What differs between two machines.
fn changes(before: &Machine, after: &Machine) -> Vec<&'static str> {
    let (was, is) = (&before.supplied, &after.supplied);
    let stores = (&was.permanent, &was.scratch) != (&is.permanent, &is.scratch);
    let parts = [
        ("state", before.state != after.state),
        ("stores", stores),
        ("start map", was.start_map != is.start_map),
        ("written map", was.written != is.written),
    ];
    let changed = parts.into_iter().filter(|&(_, changed)| changed);
    changed.map(|(part, _)| part).collect()
}

fn same_answers(answer: Answer, other: Answer) -> Claim {
    if other != answer {
        return Err(format!("{answer:?}, but {other:?} on zeroed words"));
    }
    Ok(())
}

/// Runs every frame of a list; panics with the seed and the call where a claim fails.
pub fn run_list(seed: u64, sizes: Sizes, list: &[u8]) {
    let lines = frame::lines(list).into_iter();
    let steps = lines.map(|line| frame::parse(line).map(Step::Call));
    run(seed, sizes, steps);
}

/// Runs a list with loads likewise; yields what was loaded.
pub fn run_steps(seed: u64, sizes: Sizes, steps: &[Step]) -> Loads {
    run(seed, sizes, steps.iter().copied().map(Some))
}

/// Runs steps; none stands for a line that is no frame.
fn run(seed: u64, sizes: Sizes, steps: impl Iterator<Item = Option<Step>>) -> Loads {
    let mut trial = Trial::new(seed, sizes);
    for (number, step) in (1..).zip(steps) {
        let claim = match step {
            Some(Step::Call(call)) => trial.call(call),
            Some(Step::LoadRights(text)) => trial.load_rights(text),
            None => Ok(()),
        };
        if let Err(words) = claim {
            panic!("seed {seed}, sizes {sizes:?}, line {number}, {step:x?}: {words}");
        }
    }
    let last = claims::all_offsets_are_exact(&trial.machine, &trial.history);
    if let Err(words) = last {
        panic!("seed {seed}, sizes {sizes:?}, after the list: {words}");
    }
    trial.loads
}
