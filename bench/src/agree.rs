//! Before anything is measured: tuned and plain Rust answer as the exported functions do on random calls,
//! plain Rust by each of its rules. What is compared with the proved core is no other core.

use std::collections::BTreeMap;
use std::fmt::Debug;

use in_line::{check_by_display, check_by_scan, check_by_walk};
use reference::random::Random;
use reference::rights::DIGITS;
use reference::texts::{self, Text};

use crate::machine::{
    Answer, Core, InLine, Machine, Plain, Scan, Tuned, Unchecked, View, Walk, BLOCK, SCRATCH,
};

const LISTS: u64 = 100;
const CALLS: u64 = 2_000;
/// Most loads before the threads start, and how many are tried after it.
const LOADS: u64 = 3;
/// The scratch store of every second list: 37 blocks and a shorter rest.
const SHORT: usize = 600;
/// The kinds of the threads that are started first, and how many scopes each of them makes.
const KINDS: [u64; 4] = [2, 2, 1, 3];
const SCOPES: u64 = 4;
/// The areas that calls name mostly; most scopes have at most this part of the scratch store, which so holds all of them
/// now and then.
const AREAS: usize = 20;
const PART: u64 = 10;
/// The numbers that threads may have and the least that none has; the entries of a full stack.
const NUMBERS: usize = 17;
const FULL: usize = 32;
/// One more than the highest status that is counted, the refusal of a scope that is open.
const STATUSES: usize = 21;

/// Panics where a side differs; else says what was compared.
pub fn check() -> String {
    let mut seen = Seen::default();
    for seed in 0..LISTS {
        match seed % 2 {
            0 => run::<SHORT>(seed, &mut seen),
            _ => run::<SCRATCH>(seed, &mut seen),
        }
    }
    seen.check();
    let calls = LISTS * CALLS;
    let [near, far] = seen.stores.map(|[no, yes]| no + yes);
    let ([helpers, ..], full) = (seen.helpers, seen.full);
    let ([made, ..], [removed, ..], fragmented) = (seen.makes, seen.removals, seen.fragmented);
    format!(
        "{calls} random calls answered alike; {near} stores were decided by display, walk and scan, \
         {far} by display and walk; {helpers} helpers were started, {full} of them with a full stack; \
         {made} scopes were made, {removed} removed, {fragmented} refused although enough blocks were free in all"
    )
}

/// How many stores the assignment rule refused and accepted: between areas on the thread's own stack,
/// and others. How many reads were of a word that nobody wrote, and of a written one. How many starts of helpers, ends,
/// makes and removals gave each status, how many helpers got a full stack, and how many scopes no run of free blocks
/// held although there were enough of them in all.
#[derive(Default)]
struct Seen {
    stores: [[u64; 2]; 2],
    reads: [u64; 2],
    helpers: [u64; STATUSES],
    ends: [u64; STATUSES],
    makes: [u64; STATUSES],
    removals: [u64; STATUSES],
    full: u64,
    fragmented: u64,
}

impl Seen {
    /// Everything came up that can: of the statuses those that a host with the right lengths meets.
    fn check(&self) {
        let stores = self.stores.as_flattened();
        assert!(!stores.contains(&0), "each kind of store came up");
        assert!(!self.reads.contains(&0), "each kind of read came up");
        let helpers = [0, 2, 3, 4, 5].map(|status| self.helpers[status]);
        assert!(!helpers.contains(&0), "each start of a helper came up");
        let ends = [0, 2, 11].map(|status| self.ends[status]);
        assert!(!ends.contains(&0), "each kind of end came up");
        let makes = [0, 2, 6, 7, 8].map(|status| self.makes[status]);
        assert!(!makes.contains(&0), "each kind of make came up");
        let removals = [0, 2, 6, 20].map(|status| self.removals[status]);
        assert!(!removals.contains(&0), "each kind of removal came up");
        assert!(self.full > 0, "a helper got a full stack");
        assert!(self.fragmented > 0, "free blocks lay too far apart");
    }
}

fn run<const S: usize>(seed: u64, seen: &mut Seen) {
    let mut random = Random::new(seed);
    let mut sides = Sides::<S>::set_up(seed);
    for _ in 0..random.below(LOADS + 1) {
        sides.load_rights(&texts::any(&mut random));
    }
    if random.percent(20) {
        sides.load_rights(&no_rights(random.below(3) as usize));
    }
    for (thread, kind) in (0..).zip(KINDS) {
        sides.call(|machine| machine.start(thread, kind));
        for scope in 0..SCOPES {
            let (area, size) = (2 + thread * SCOPES + scope, some_size::<S>(&mut random));
            sides.make(thread, area, size, seen);
        }
    }
    for _ in 0..LOADS {
        sides.load_rights(&texts::any(&mut random));
    }
    let mut handles = vec![0];
    for _ in 0..CALLS {
        let answer = any_call(&mut random, &mut sides, &handles, seen);
        if answer.status == 0 && answer.value >> 20 > 0 {
            handles.push(answer.value);
        }
    }
    sides.compare_buffers();
}

/// A table in which one kind has no right at all, so that its threads are started and may do nothing.
fn no_rights(kind: usize) -> Text {
    let mut digits = [b'1'; DIGITS];
    digits[kind * 12..][..12].fill(b'0');
    Text::new(&digits)
}

fn any_call<const S: usize>(
    random: &mut Random,
    sides: &mut Sides<S>,
    handles: &[u64],
    seen: &mut Seen,
) -> Answer {
    let t = random.below(NUMBERS as u64);
    let recent = random.below(handles.len().min(30) as u64) as usize;
    let object = handles[handles.len() - 1 - recent];
    let other = handles[random.below(handles.len() as u64) as usize];
    let index = random.below(4);
    match random.below(28) {
        0..=2 => sides.enter(t, random.below(AREAS as u64)),
        3..=4 => sides.exit(t),
        5..=7 => {
            let (slots, data) = (random.below(4), random.below(70) / (1 + random.below(70)));
            sides.call(|machine| machine.allocate(t, slots, data))
        }
        8..=9 => sides.store(t, object, index, other, seen),
        10..=11 => sides.store(t, other, index, object, seen),
        12..=13 => sides.call(|machine| machine.load(t, object, index)),
        14..=15 => {
            let word = random.word() >> 44;
            sides.call(|machine| machine.write(t, object, index, word))
        }
        16..=17 => sides.read(t, object, index, seen),
        18..=19 => sides.view(t, object),
        20 => {
            let (t, kind) = (any_number(random, NUMBERS), any_number(random, 5));
            sides.call(|machine| machine.start(t, kind))
        }
        21..=22 => {
            let (t, helper) = (any_number(random, NUMBERS), any_number(random, NUMBERS));
            sides.start_helper(t, any_number(random, 5), helper, seen)
        }
        23..=25 => {
            let area = any_number(random, AREAS);
            sides.make(t, area, any_size::<S>(random), seen)
        }
        26 => sides.remove(t, any_number(random, AREAS), seen),
        _ => match random.below(10) {
            0 => sides.fill(t, random),
            1..=3 => sides.leave(t, seen),
            _ => sides.end(any_number(random, NUMBERS), seen),
        },
    }
}

/// Mostly a number below the bound, else one that ends in its bits.
fn any_number(random: &mut Random, bound: usize) -> u64 {
    let number = random.below(bound as u64);
    if random.percent(90) {
        return number;
    }
    number | 1 << random.between(4, 63)
}

fn some_size<const S: usize>(random: &mut Random) -> u64 {
    random.between(1, S as u64 / PART)
}

/// Mostly a size that may fit, often whole blocks or a word more; also 0 and the greatest numbers.
fn any_size<const S: usize>(random: &mut Random) -> u64 {
    let size = some_size::<S>(random);
    match random.below(20) {
        0 => 0,
        1 => u64::MAX - random.below(2 * BLOCK),
        2 => random.between(1, S as u64 + 1),
        3..=10 => size.next_multiple_of(BLOCK) + random.below(2),
        _ => size,
    }
}

/// All sides, which are given the same calls and are lent a scratch store of S words.
struct Sides<const S: usize> {
    seed: u64,
    core: Core<S>,
    tuned: Tuned<S>,
    unchecked: Unchecked<S>,
    plain: Plain<S>,
    in_line: InLine<S>,
    walk: Walk<S>,
    scan: Scan<S>,
    /// The areas that each thread stands in.
    rows: [Vec<u64>; NUMBERS],
    /// The blocks of each made scope.
    blocks: BTreeMap<u64, u64>,
}

impl<const S: usize> Sides<S> {
    fn set_up(seed: u64) -> Sides<S> {
        Sides {
            seed,
            core: Core::set_up(),
            tuned: Tuned::set_up(),
            unchecked: Unchecked::set_up(),
            plain: Plain::set_up(),
            in_line: InLine::set_up(),
            walk: Walk::set_up(),
            scan: Scan::set_up(),
            rows: Default::default(),
            blocks: BTreeMap::new(),
        }
    }

    /// A call that the sides answer alike.
    fn call<T>(&mut self, call: impl Fn(&mut dyn Machine) -> T) -> T
    where
        T: Copy + PartialEq + Debug,
    {
        let answer = self.call_but_scan(&call);
        let scanned = call(&mut self.scan);
        self.same("the scan", scanned, answer);
        answer
    }

    fn call_but_scan<T>(&mut self, call: impl Fn(&mut dyn Machine) -> T) -> T
    where
        T: Copy + PartialEq + Debug,
    {
        let answer = call(&mut self.core);
        for (name, given) in self.others().map(|(name, machine)| (name, call(machine))) {
            self.same(name, given, answer);
        }
        answer
    }

    /// Those that decide every store.
    fn others(&mut self) -> [(&'static str, &mut dyn Machine); 5] {
        [
            ("tuned Rust", &mut self.tuned),
            ("tuned Rust unchecked", &mut self.unchecked),
            ("plain Rust", &mut self.plain),
            ("plain Rust in line", &mut self.in_line),
            ("the walk", &mut self.walk),
        ]
    }

    /// After a list all hold the same words.
    fn compare_buffers(&mut self) {
        let expected = self.core.buffers().map(<[u64]>::to_vec);
        let others = self
            .others()
            .map(|(name, machine)| (name, machine.buffers() == expected));
        for (name, equal) in others {
            self.same(&format!("what {name} left in the buffers"), equal, true);
        }
        self.same(
            "what the scan left in the buffers",
            self.scan.buffers() == expected,
            true,
        );
    }

    fn same<T: PartialEq + Debug>(&self, name: &str, given: T, expected: T) {
        assert_eq!(given, expected, "{name} differs, seed {}", self.seed);
    }

    fn load_rights(&mut self, text: &Text) {
        self.call(|machine| machine.load_rights(text.bytes()));
    }

    fn make(&mut self, t: u64, area: u64, size: u64, seen: &mut Seen) -> Answer {
        let answer = self.call(|machine| machine.make(t, area, size));
        let blocks = size.div_ceil(BLOCK);
        match answer.status {
            0 => _ = self.blocks.insert(area, blocks),
            8 => seen.fragmented += u64::from(size > 0 && blocks <= self.free_blocks()),
            _ => {}
        }
        seen.makes[answer.status as usize] += 1;
        answer
    }

    fn free_blocks(&self) -> u64 {
        S as u64 / BLOCK - self.blocks.values().sum::<u64>()
    }

    fn remove(&mut self, t: u64, area: u64, seen: &mut Seen) -> Answer {
        let answer = self.call(|machine| machine.remove(t, area));
        if answer.status == 0 {
            self.blocks.remove(&area);
        }
        seen.removals[answer.status as usize] += 1;
        answer
    }

    fn enter(&mut self, t: u64, area: u64) -> Answer {
        let answer = self.call(|machine| machine.enter(t, area));
        if answer.status == 0 {
            self.rows[t as usize].push(area);
        }
        answer
    }

    fn exit(&mut self, t: u64) -> Answer {
        let answer = self.call(|machine| machine.exit(t));
        if answer.status == 0 {
            self.rows[t as usize].pop();
        }
        answer
    }

    fn start_helper(&mut self, t: u64, kind: u64, helper: u64, seen: &mut Seen) -> Answer {
        let answer = self.call(|machine| machine.start_helper(t, kind, helper));
        if answer.status == 0 {
            self.rows[helper as usize] = self.rows[t as usize].clone();
            seen.full += u64::from(self.rows[helper as usize].len() == FULL);
        }
        seen.helpers[answer.status as usize] += 1;
        answer
    }

    fn end(&mut self, t: u64, seen: &mut Seen) -> Answer {
        let answer = self.call(|machine| machine.end(t));
        seen.ends[answer.status as usize] += 1;
        answer
    }

    /// A thread leaves all areas and ends.
    fn leave(&mut self, t: u64, seen: &mut Seen) -> Answer {
        while self.exit(t).status == 0 {}
        self.end(t, seen)
    }

    /// A thread enters areas, so often that its stack is full then, where its rights allow that.
    fn fill(&mut self, t: u64, random: &mut Random) -> Answer {
        for _ in 0..4 * FULL {
            self.enter(t, random.below(6));
        }
        self.enter(t, 0)
    }

    fn read(&mut self, t: u64, object: u64, index: u64, seen: &mut Seen) -> Answer {
        let answer = self.call(|machine| machine.read(t, object, index));
        if [0, 19].contains(&answer.status) {
            seen.reads[usize::from(answer.status == 0)] += 1;
        }
        answer
    }

    /// The view of an object; its status is looked at no further.
    fn view(&mut self, t: u64, object: u64) -> Answer {
        let View { status, .. } = self.call(|machine| machine.view(t, object));
        Answer { status, value: 0 }
    }

    /// The scan decides where both areas stand on the thread's own stack; the display decides for it
    /// elsewhere, so that the sides hold the same words.
    fn store(&mut self, t: u64, object: u64, slot: u64, target: u64, seen: &mut Seen) -> Answer {
        let answer = self.call_but_scan(|machine| machine.store(t, object, slot, target));
        let areas = [object, target].map(|handle| handle >> 14 & 0x3f);
        let row = &self.rows[t as usize];
        let near = areas.iter().all(|area| *area < 2 || row.contains(area));
        let scanned = if near {
            self.scan.store(t, object, slot, target)
        } else {
            self.scan.store_by_display(t, object, slot, target)
        };
        self.same("the scan", scanned, answer);
        if target != 0 && [0, 16].contains(&answer.status) {
            let allowed = answer.status == 0;
            self.compare_rules(t, areas, near, allowed);
            seen.stores[usize::from(!near)][usize::from(allowed)] += 1;
        }
        answer
    }

    /// The rules by themselves say what the store said.
    fn compare_rules(&self, t: u64, [holder, target]: [u64; 2], near: bool, allowed: bool) {
        let check = |rule| self.in_line.check(rule, t, holder, target);
        self.same("the display's rule", check(check_by_display), allowed);
        self.same("the walk's rule", check(check_by_walk), allowed);
        if near {
            self.same("the scan's rule", check(check_by_scan), allowed);
        }
    }
}
