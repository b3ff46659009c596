//! Every claim of the third demand, tried by brute force against the book.

use std::ops::Range;

use crate::answer::Answer;
use crate::blocks::BLOCK_WORDS;
use crate::calls::{Call, Op};
use crate::history::{History, MadeObject};
use crate::layout::{Handle, NULL};
use crate::loads::{Load, Loads};
use crate::machine::Machine;
use crate::memory::Lengths;
use crate::random::Random;
use crate::rights::{Kind, Right, RightsTable, DIGITS};
use crate::state::{is_scope, AREAS, FIRST_SCOPE, HEAP, IMMORTAL};
use crate::values::removal_status;

/// Nothing, or the words of the first claim that fails.
pub type Claim = Result<(), String>;

/// The claims that are cheap enough for each call.
pub fn hold(machine: &Machine, history: &History) -> Claim {
    same_threads(machine, history)?;
    same_scopes(machine, history)?;
    ancestors_in_order(history)?;
    walk_is_scan(machine, history)?;
    walk_is_rule(machine, history)?;
    counts_are_entries(machine, history)?;
    objects_lie_within(machine, history)?;
    same_sizes(machine, history)?;
    scopes_lie_in_blocks(machine)?;
    scopes_are_apart(machine)?;
    used_bits_are_exact(machine)?;
    references_are_sound(machine, history)?;
    written_bits_are_exact(machine, history)?;
    given_handles_are_exact(machine, history)
}

fn claim(holds: bool, words: impl FnOnce() -> String) -> Claim {
    if holds {
        Ok(())
    } else {
        Err(words())
    }
}

/// "The core has the book's started threads, stacks ..."
fn same_threads(machine: &Machine, history: &History) -> Claim {
    for (number, row) in history.rows.iter().enumerate() {
        let thread = &machine.state.threads[number];
        claim(thread.kind == history.kinds[number], || {
            format!("thread {number} has kind {:?}", thread.kind)
        })?;
        let expected = row.as_deref().unwrap_or(&[]);
        claim(thread.stack == expected, || {
            format!("stack {number} is {:?}, not {expected:?}", thread.stack)
        })?;
    }
    Ok(())
}

/// "... open scopes and parents."
fn same_scopes(machine: &Machine, history: &History) -> Claim {
    let open_scopes = history.open_scopes();
    for scope in 0..AREAS {
        let open = open_scopes.contains(&scope);
        claim(machine.state.is_open(scope) == open, || {
            format!("scope {scope} is open: {}", !open)
        })?;
        let parent = history.parents.get(&scope).copied().flatten();
        claim(machine.state.area(scope).parent == parent, || {
            format!("scope {scope} has not the parent {parent:?}")
        })?;
        claim(history.parents.contains_key(&scope) == open, || {
            format!("the book's parent of {scope} does not fit its rows")
        })?;
    }
    Ok(())
}

/// "Every thread in a scope stands in all that scope's ancestors, in their order."
fn ancestors_in_order(history: &History) -> Claim {
    for row in history.rows.iter().flatten() {
        for (place, &scope) in row.iter().enumerate() {
            stands_in_ancestors(history, row, place)
                .ok_or_else(|| format!("row {row:?} lacks an ancestor of {scope}"))?;
        }
    }
    Ok(())
}

/// "each one met stands below the one met before it, outermost lowest"
fn stands_in_ancestors(history: &History, row: &[u64], place: usize) -> Option<()> {
    let mut below = place;
    for ancestor in history.walk(row[place]).into_iter().skip(1) {
        below = row[..below].iter().position(|&area| area == ancestor)?;
    }
    Some(())
}

/// "Of scopes A and B the walk says yes if from B it meets A, ... the scan if on the thread's row A
/// stands no higher than B."
fn walk_is_scan(machine: &Machine, history: &History) -> Claim {
    for row in history.rows.iter().flatten() {
        let scopes: Vec<u64> = row.iter().copied().filter(|&a| is_scope(a)).collect();
        for (place_b, &b) in scopes.iter().enumerate() {
            let met: Vec<u64> = machine.state.walk(b).collect();
            for (place_a, a) in scopes.iter().enumerate() {
                claim(met.contains(a) == (place_a <= place_b), || {
                    format!("walk and scan differ for {a} and {b} on {row:?}")
                })?;
            }
        }
    }
    Ok(())
}

/// The core's verdict on a store equals the book's walk, for any two areas that have objects.
fn walk_is_rule(machine: &Machine, history: &History) -> Claim {
    let mut areas = history.open_scopes();
    areas.extend([HEAP, IMMORTAL]);
    for &holder in &areas {
        let met = history.walk(holder);
        for &target in &areas {
            let allowed = !is_scope(target) || met.contains(&target);
            claim(machine.state.may_hold(holder, target) == allowed, || {
                format!("an object of {holder} may hold one of {target}: {allowed}")
            })?;
        }
    }
    Ok(())
}

/// A scope's count is the number of its entries on all rows, also of threads that never entered it.
fn counts_are_entries(machine: &Machine, history: &History) -> Claim {
    for scope in FIRST_SCOPE..AREAS {
        let (count, entries) = (machine.state.area(scope).count, history.entries(scope));
        claim(count == entries, || {
            format!("scope {scope} has count {count}, not {entries}")
        })?;
    }
    Ok(())
}

/// Every live object lies within its area's used words, these within the area, and the area within
/// its store.
fn objects_lie_within(machine: &Machine, history: &History) -> Claim {
    let lengths = machine.supplied.lengths();
    for object in history.live_objects() {
        let area = machine.state.area(object.area);
        let handle = Handle::unpack(object.handle);
        let store_end = if is_scope(object.area) {
            lengths.permanent + lengths.scratch
        } else {
            lengths.permanent
        };
        let within = handle.area == object.area
            && handle.offset + 1 + object.slots + object.data() <= area.used
            && area.used <= area.size
            && area.first + area.size <= store_end;
        claim(within, || {
            format!("object {:x} does not lie within its area", object.handle)
        })?;
    }
    Ok(())
}

/// Each scope's size is the book's, as asked, and so are the scopes that are made.
fn same_sizes(machine: &Machine, history: &History) -> Claim {
    for scope in FIRST_SCOPE..AREAS {
        let area = machine.state.area(scope);
        let size = history.sizes[scope as usize];
        claim((area.made, area.size) == (size > 0, size), || {
            let (made, given) = (area.made, area.size);
            format!("scope {scope} has size {given}, made: {made}, the list tells {size}")
        })?;
    }
    Ok(())
}

/// The made scopes, each with the numbers of its words.
fn made_scopes(machine: &Machine) -> impl Iterator<Item = (u64, Range<u64>)> + '_ {
    let areas = (0..).zip(&machine.state.areas);
    let made = areas.filter(|(number, area)| is_scope(*number) && area.made);
    made.map(|(scope, area)| (scope, area.first..area.first + area.size))
}

/// Every made scope starts with a block of scratch and ends within the S / 16 whole ones.
fn scopes_lie_in_blocks(machine: &Machine) -> Claim {
    let Lengths {
        permanent, scratch, ..
    } = machine.supplied.lengths();
    let end = permanent + scratch / BLOCK_WORDS * BLOCK_WORDS;
    for (scope, words) in made_scopes(machine) {
        let start = words.start.checked_sub(permanent);
        let aligned = start.is_some_and(|start| start % BLOCK_WORDS == 0);
        claim(aligned && words.end <= end, || {
            format!("scope {scope} has words {words:?}, the blocks are {permanent}..{end}")
        })?;
    }
    Ok(())
}

/// No two made scopes share a word.
fn scopes_are_apart(machine: &Machine) -> Claim {
    let mut owners = vec![None; machine.supplied.scratch.len()];
    for (scope, words) in made_scopes(machine) {
        for number in words {
            let owner = &mut owners[in_scratch(machine, number)];
            if let Some(other) = owner.replace(scope) {
                return Err(format!("word {number} is one of {other} and of {scope}"));
            }
        }
    }
    Ok(())
}

/// The place in scratch of a scope's word.
fn in_scratch(machine: &Machine, number: u64) -> usize {
    number as usize - machine.supplied.permanent.len()
}

/// A block's used bit is 1 exactly if a word of a made scope lies in it.
fn used_bits_are_exact(machine: &Machine) -> Claim {
    let used = &machine.state.used_blocks;
    let mut held = vec![false; machine.supplied.scratch.len() / BLOCK_WORDS as usize];
    for number in made_scopes(machine).flat_map(|(_, words)| words) {
        held[in_scratch(machine, number) / BLOCK_WORDS as usize] = true;
    }
    claim(used.len() == held.len(), || {
        format!("{} used bits of {} blocks", used.len(), held.len())
    })?;
    for (block, (used, held)) in used.iter().zip(held).enumerate() {
        claim(*used == held, || format!("block {block} is used: {used}"))?;
    }
    Ok(())
}

/// "Every reference in a live object is null or names a live object: one in the heap, in immortal
/// memory, or in a scope that ... has never been empty of threads since that object was made." That
/// live objects are held since they were made is tried with the given handles.
fn references_are_sound(machine: &Machine, history: &History) -> Claim {
    let live = LiveNumbers::new(history);
    for holder in history.live_objects() {
        for slot in 0..holder.slots {
            let word = reference(machine, holder, slot);
            claim(word == NULL || live.contains(word), || {
                format!("slot {slot} of {:x} holds {word:x}", holder.handle)
            })?;
        }
    }
    Ok(())
}

/// "a reference is the lent word in one of its slots"
fn reference(machine: &Machine, holder: &MadeObject, slot: u64) -> u64 {
    machine
        .supplied
        .word(header_word(machine, holder) + 1 + slot)
}

/// The number of an object's header word.
fn header_word(machine: &Machine, object: &MadeObject) -> u64 {
    let handle = Handle::unpack(object.handle);
    machine.state.area(handle.area).first + handle.offset
}

/// The written bit of a live object's data word is 1 exactly if the word was written since the object
/// was made; that of its header and of its slots is 0.
fn written_bits_are_exact(machine: &Machine, history: &History) -> Claim {
    for object in history.live_objects() {
        let header_and_slots = std::iter::repeat_n(false, 1 + object.slots as usize);
        let data = object.words.iter().map(Option::is_some);
        let numbers = header_word(machine, object)..;
        for (number, written) in numbers.zip(header_and_slots.chain(data)) {
            claim(machine.supplied.is_written(number) == written, || {
                let handle = object.handle;
                format!(
                    "word {number}, of {handle:x}, is marked as written: {}",
                    !written
                )
            })?;
        }
    }
    Ok(())
}

/// "a handle whose object is gone is never accepted as one again", and no handle is given twice.
fn given_handles_are_exact(machine: &Machine, history: &History) -> Claim {
    let mut given: Vec<u64> = history.objects.iter().map(|object| object.handle).collect();
    given.sort_unstable();
    let twice = given.windows(2).find(|pair| pair[0] == pair[1]);
    claim(twice.is_none(), || format!("given twice: {twice:x?}"))?;
    for object in &history.objects {
        claim(machine.is_live(object.handle) != object.gone, || {
            format!("given {:x} is live: {}", object.handle, object.gone)
        })?;
        claim(object.gone != history.held_since_made(object), || {
            format!("object {:x} is gone: {}", object.handle, object.gone)
        })?;
    }
    Ok(())
}

/// "A number is a live handle exactly when an allocation gave it for a live object", tried for
/// single numbers.
pub struct LiveNumbers {
    sorted: Vec<u64>,
}

impl LiveNumbers {
    pub fn new(history: &History) -> LiveNumbers {
        let live = history.live_objects().map(|object| object.handle);
        let mut sorted: Vec<u64> = live.collect();
        sorted.sort_unstable();
        LiveNumbers { sorted }
    }

    pub fn contains(&self, word: u64) -> bool {
        self.sorted.binary_search(&word).is_ok()
    }

    fn is_exact(&self, machine: &Machine, word: u64) -> Claim {
        let live = machine.is_live(word);
        claim(live == self.contains(word), || {
            format!("number {word:x} is live: {live}")
        })
    }
}

/// Tries every neighbour of every given handle, and random words.
pub fn neighbours_are_exact(machine: &Machine, history: &History, random: &mut Random) -> Claim {
    let live = LiveNumbers::new(history);
    for object in &history.objects {
        for bit in 0..64 {
            live.is_exact(machine, object.handle ^ (1 << bit))?;
        }
        for word in neighbours(machine, object.handle) {
            live.is_exact(machine, word)?;
        }
    }
    for _ in 0..64 {
        let word = random.word();
        live.is_exact(machine, word)?;
        live.is_exact(machine, word >> random.below(64))?;
    }
    Ok(())
}

/// One offset, area or generation beside a handle, and its place under the present generation.
fn neighbours(machine: &Machine, word: u64) -> [u64; 7] {
    let handle = Handle::unpack(word);
    let present = machine.state.area(handle.area).generation;
    let next_area = (handle.area + 1) % AREAS;
    let next_generation = machine.state.area(next_area).generation;
    [
        word.wrapping_add(1),
        word.wrapping_sub(1),
        word.wrapping_add(1 << 14),
        word.wrapping_add(1 << 20),
        word.wrapping_sub(1 << 20),
        with(handle, handle.area, present),
        with(handle, next_area, next_generation),
    ]
}

fn with(handle: Handle, area: u64, generation: u64) -> u64 {
    let offset = handle.offset;
    Handle {
        offset,
        area,
        generation,
    }
    .pack()
}

/// Tries every offset of every area, under its generation and the one before.
pub fn all_offsets_are_exact(machine: &Machine, history: &History) -> Claim {
    let live = LiveNumbers::new(history);
    for area in 0..AREAS {
        let Some(last) = machine.state.area(area).size.checked_sub(1) else {
            continue;
        };
        let present = machine.state.area(area).generation;
        for offset in 0..=last {
            for generation in present.saturating_sub(1)..=present {
                let handle = Handle {
                    offset,
                    area,
                    generation,
                };
                live.is_exact(machine, handle.pack())?;
            }
        }
    }
    Ok(())
}

/// The rights of one kind in one class that a load allows: "only 0 and 1, and A only with U".
const LOADABLE: [&[u8]; 12] = [
    b"0000", b"0001", b"0010", b"0011", b"0110", b"0111", //
    b"1000", b"1001", b"1010", b"1011", b"1110", b"1111",
];

/// The claims on loads.
pub fn loads_hold(machine: &Machine, loads: &Loads) -> Claim {
    table_is_the_newest(machine, loads)?;
    loads.all.iter().try_for_each(load_is_told)
}

/// "the constant table, which stays in force until a load": the table in force is that of the newest
/// accepted load, or the built-in one.
fn table_is_the_newest(machine: &Machine, loads: &Loads) -> Claim {
    let in_force = *machine.state.rights.digits();
    claim(in_force == loads.digits(), || {
        let in_force = in_force.escape_ascii();
        format!(
            "in force is {in_force}, not {}",
            loads.digits().escape_ascii()
        )
    })
}

/// A load is accepted exactly where its text is a table and, by the book before it, no thread was
/// started. "23 ... first. 24 ... after 23."
fn load_is_told(load: &Load) -> Claim {
    let text = load.text.bytes();
    let is_table = text.len() == DIGITS && text.chunks(4).all(|class| LOADABLE.contains(&class));
    let status = match (is_table, load.running) {
        (false, _) => 23,
        (true, true) => 24,
        (true, false) => 0,
    };
    claim(
        (load.answer.status, load.answer.value) == (status, 0),
        || format!("{load:?}, expected {status}"),
    )
}

/// The shown part and its status call, by what the book knows of the thread and the number, and by
/// the table that the list tells.
pub fn view_is_exact(
    machine: &Machine,
    history: &History,
    table: &RightsTable,
    thread: u64,
    word: u64,
) -> Claim {
    let state = &machine.state;
    let status = state.view_status_of(&machine.supplied, thread, word);
    let shown = state.view_of(&machine.supplied, thread, word);
    let (expected, words) = expected_part(history, table, thread, word);
    claim((status.status, shown) == (expected, &words), || {
        format!("thread {thread} is shown {shown:x?} of {word:x}, {status:?}")
    })?;
    claim(status.value == 0, || "the status call has a value".into())
}

/// The status and the words. They are raw words: the last one written, or the 0 of allocation.
fn expected_part(
    history: &History,
    table: &RightsTable,
    thread: u64,
    word: u64,
) -> (u64, Vec<u64>) {
    match usable_object(history, table, thread, word) {
        Ok(object) => (0, object.words.iter().map(|w| w.unwrap_or(0)).collect()),
        Err(refusal) => (refusal, Vec::new()),
    }
}

/// The object that a thread may use, or the refusal, from the book and the table alone: "2, 13, 5".
fn usable_object<'a>(
    history: &'a History,
    table: &RightsTable,
    thread: u64,
    word: u64,
) -> Result<&'a MadeObject, u64> {
    let kinds = &history.kinds;
    let kind = kinds.get(thread as usize).copied().flatten().ok_or(2u64)?;
    let object = history.live_object(word).ok_or(13u64)?;
    let usable = table.has_right(kind, object.area, Right::Use);
    usable.then_some(object).ok_or(5)
}

/// A read that is not refused by 1 answers what the book and the table tell: "the last word accepted
/// for that handle and index, or 19 if there is none".
pub fn read_is_exact(history: &History, table: &RightsTable, call: Call, answer: Answer) -> Claim {
    let Op::Read { object, index } = call.op else {
        return Ok(());
    };
    let expected = expected_word(history, table, call.thread, object, index);
    let given = match answer.status {
        0 => Ok(answer.value),
        refusal => Err(refusal),
    };
    claim(given == expected, || {
        format!("word {index} of {object:x} reads {given:?}, the list tells {expected:?}")
    })
}

/// The word, or the refusal: "2, 13, 5, 14", then 19.
fn expected_word(
    history: &History,
    table: &RightsTable,
    thread: u64,
    object: u64,
    index: u64,
) -> Result<u64, u64> {
    let object = usable_object(history, table, thread, object)?;
    let word = object.words.get(index as usize).ok_or(14u64)?;
    word.ok_or(19)
}

/// A start of a helper that is not refused by 1 answers what the book and the table tell.
pub fn helper_is_exact(
    history: &History,
    table: &RightsTable,
    call: Call,
    answer: Answer,
) -> Claim {
    let Op::StartHelper { kind, helper } = call.op else {
        return Ok(());
    };
    let expected = expected_status(history, table, call.thread, kind, helper);
    let given = (answer.status, answer.value);
    claim(given == (expected, 0), || {
        format!("the helper's start answers {given:?}, the list tells {expected}")
    })
}

/// "2 (starter as in the table, then new number, above 15 only), 3 (new number), 4, then 5 if the
/// kind lacks E for any entry."
fn expected_status(
    history: &History,
    table: &RightsTable,
    starter: u64,
    kind: u64,
    helper: u64,
) -> u64 {
    let rows = &history.rows;
    let Some(Some(entries)) = rows.get(starter as usize) else {
        return 2;
    };
    let may_enter = |kind, area: &u64| table.has_right(kind, *area, Right::Enter);
    match (rows.get(helper as usize), Kind::from_number(kind)) {
        (None, _) => 2,
        (Some(Some(_)), _) => 3,
        (Some(None), None) => 4,
        (Some(None), Some(kind)) if !entries.iter().all(|area| may_enter(kind, area)) => 5,
        (Some(None), Some(_)) => 0,
    }
}

/// A removal that is not refused by 1 answers what the book tells.
pub fn removal_is_exact(history: &History, call: Call, answer: Answer) -> Claim {
    let Op::Remove { area } = call.op else {
        return Ok(());
    };
    let expected = removal_status(history, call.thread, area);
    let given = (answer.status, answer.value);
    claim(given == (expected, 0), || {
        format!("the removal answers {given:?}, the list tells {expected}")
    })
}
