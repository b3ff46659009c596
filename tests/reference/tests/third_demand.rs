//! The brute-force check holds for generated lists and sees what it should see.

mod common;

use common::REAL_TIME;
use reference::answer::{Answer, Refusal};
use reference::calls::{Call, Op};
use reference::claims;
use reference::generator;
use reference::history::History;
use reference::loads::{Load, Loads};
use reference::machine::Machine;
use reference::random::Random;
use reference::rights::{Kind, RightsTable, BUILT_IN, DIGITS};
use reference::state::State;
use reference::texts::Text;
use reference::trial::{run_list, run_steps, Trial, FRAME_SIZES};

#[test]
fn generated_lists_hold() {
    for seed in 1..=10 {
        let list = generator::list(seed, 200);
        run_list(seed, FRAME_SIZES, &list);
        run_list(seed, (57, 130, 777), &list);
    }
}

/// Lists with loads: of each status, with and without started threads, with and without objects.
#[test]
fn generated_lists_with_loads_hold() {
    let mut all = Vec::new();
    for seed in 1..=30 {
        let steps = generator::steps(seed, 150);
        all.extend(run_steps(seed, FRAME_SIZES, &steps).all);
        all.extend(run_steps(seed, (57, 130, 777), &steps).all);
    }
    let came = |status, running, objects| {
        let told = |load: &Load| (load.answer.status, load.running, load.objects);
        all.iter()
            .any(|load| told(load) == (status, running, objects))
    };
    for objects in [false, true] {
        assert!(came(0, false, objects));
        assert!(came(23, false, objects) && came(23, true, objects));
        assert!(came(24, true, objects));
    }
    let accepted = all.iter().filter(|load| load.answer.is_accepted());
    let others = accepted.filter(|load| load.text.bytes() != BUILT_IN);
    assert!(others.count() > 30);
}

#[test]
fn lists_depend_on_the_seed_alone() {
    assert_eq!(generator::list(5, 300), generator::list(5, 300));
    assert_ne!(generator::list(5, 300), generator::list(6, 300));
    // The numbers themselves are fixed: splitmix64 from 0.
    let mut random = Random::new(0);
    assert_eq!(random.word(), 0xe220_a839_7b1d_cdaf);
    assert_eq!(random.word(), 0x6e78_9e6a_a1b9_65f4);
}

fn run(machine: &mut Machine, history: &mut History, thread: u64, op: Op) -> u64 {
    let call = Call { thread, op };
    let answer = machine.run(call);
    assert!(answer.is_accepted(), "{call:?} {answer:?}");
    history.step(call, answer);
    answer.value
}

/// Thread 0 in scopes 2 and 3, of 20 words and so of two blocks each, thread 1 in 2; an object in each
/// that refers to the one of 2.
fn nested() -> (Machine, History, u64, u64) {
    let (mut machine, mut history) = (Machine::for_frames(), History::new());
    let mut call = |thread, op| run(&mut machine, &mut history, thread, op);
    call(0, Op::Start { kind: REAL_TIME });
    call(1, Op::Start { kind: REAL_TIME });
    call(0, Op::Make { area: 2, size: 20 });
    call(0, Op::Make { area: 3, size: 20 });
    call(0, Op::Enter { area: 2 });
    let outer = call(0, Op::Allocate { slots: 1, data: 1 });
    call(0, Op::Enter { area: 3 });
    call(1, Op::Enter { area: 2 });
    let inner = call(0, Op::Allocate { slots: 1, data: 1 });
    for object in [outer, inner] {
        let (slot, target) = (0, outer);
        let op = Op::Store {
            object,
            slot,
            target,
        };
        call(1, op);
    }
    assert_eq!(all_claims(&machine, &history), Ok(()));
    (machine, history, outer, inner)
}

fn all_claims(machine: &Machine, history: &History) -> claims::Claim {
    claims::hold(machine, history)?;
    claims::neighbours_are_exact(machine, history, &mut Random::new(1))?;
    claims::all_offsets_are_exact(machine, history)
}

/// The words of the claim that fails after a change of the machine.
fn words_after(change: impl FnOnce(&mut Machine, &mut History, u64, u64)) -> String {
    let (mut machine, mut history, outer, inner) = nested();
    change(&mut machine, &mut history, outer, inner);
    let claim = all_claims(&machine, &history);
    claim.expect_err("every claim holds")
}

#[test]
fn sees_another_thread() {
    let words = words_after(|machine, _, _, _| {
        machine.state.threads[5].kind = Some(Kind::NoHeap);
    });
    assert!(words.contains("thread 5 has kind"), "{words}");
}

#[test]
fn sees_a_forgotten_entry() {
    let words = words_after(|machine, _, _, _| {
        machine.state.threads[0].stack.pop();
    });
    assert!(words.contains("stack 0"), "{words}");
}

#[test]
fn sees_a_scope_closed_under_its_thread() {
    let words = words_after(|machine, _, _, _| machine.state.areas[3].count = 0);
    assert!(words.contains("scope 3 is open"), "{words}");
}

#[test]
fn sees_another_count() {
    for count in [1, 3] {
        let words = words_after(|machine, _, _, _| machine.state.areas[2].count = count);
        let expected = format!("scope 2 has count {count}, not 2");
        assert_eq!(words, expected);
    }
}

#[test]
fn sees_another_parent() {
    let words = words_after(|machine, _, _, _| machine.state.areas[3].parent = None);
    assert!(words.contains("has not the parent"), "{words}");
}

/// The first version: each thread nests scopes in its own order.
#[test]
fn sees_a_thread_outside_an_ancestor() {
    let words = words_after(|machine, history, _, _| {
        machine.state.threads[1].stack.push(3);
        machine.state.threads[1].stack.remove(0);
        history.rows[1] = Some(vec![3]);
    });
    assert!(words.contains("lacks an ancestor of 3"), "{words}");
}

#[test]
fn sees_ancestors_out_of_order() {
    let words = words_after(|machine, history, _, _| {
        machine.state.threads[1].stack = vec![3, 2];
        history.rows[1] = Some(vec![3, 2]);
    });
    assert!(words.contains("lacks an ancestor of 3"), "{words}");
}

#[test]
fn sees_scopes_on_a_row_that_are_no_ancestors() {
    let words = words_after(|machine, history, _, _| {
        machine.state.areas[3].parent = None;
        history.parents.insert(3, None);
    });
    assert!(words.contains("walk and scan differ"), "{words}");
}

#[test]
fn sees_an_object_past_the_used_words() {
    let words = words_after(|machine, _, _, _| machine.state.areas[3].used -= 1);
    assert!(words.contains("does not lie within its area"), "{words}");
}

#[test]
fn sees_used_words_past_the_area() {
    let words = words_after(|machine, _, _, _| machine.state.areas[3].size = 2);
    assert!(words.contains("does not lie within its area"), "{words}");
}

#[test]
fn sees_an_area_past_its_store() {
    let words = words_after(|machine, _, _, _| machine.state.areas[3].size = 5_000);
    assert!(words.contains("does not lie within its area"), "{words}");
}

/// A reference from an outer object to an inner one, whose scope then empties.
#[test]
fn sees_a_dangling_reference() {
    let words = words_after(|machine, history, _, inner| {
        machine.supplied.scratch[1] = inner;
        run(machine, history, 0, Op::Exit);
    });
    assert!(words.contains("slot 0 of"), "{words}");
}

/// A start bit at the data word of the object in scope 2, which reads as an empty header.
#[test]
fn sees_a_number_that_was_never_given() {
    let words = words_after(|machine, _, _, _| machine.supplied.start_map[32] |= 4);
    assert!(words.contains("is live: true"), "{words}");
}

#[test]
fn sees_a_handle_that_is_refused() {
    let words = words_after(|machine, _, _, _| machine.supplied.start_map[32] &= !1);
    assert!(words.contains("is live: false"), "{words}");
}

/// "Resetting the turn on reuse."
#[test]
fn sees_a_dead_handle_live_again() {
    let words = words_after(|machine, history, _, _| {
        run(machine, history, 0, Op::Exit);
        machine.state.areas[3].generation = 0;
        run(machine, history, 0, Op::Enter { area: 3 });
        run(machine, history, 0, Op::Allocate { slots: 1, data: 1 });
    });
    assert!(words.contains("given twice"), "{words}");
}

#[test]
fn sees_a_dead_handle_accepted() {
    let words = words_after(|machine, history, _, _| {
        let kept = machine.state.areas[3].clone();
        run(machine, history, 0, Op::Exit);
        run(machine, history, 0, Op::Enter { area: 3 });
        machine.state.areas[3] = kept;
    });
    assert!(words.contains("is live: true"), "{words}");
}

#[test]
fn sees_a_view_of_another_length() {
    let (machine, mut history, outer, _) = nested();
    let table = RightsTable::built_in();
    let claim = claims::view_is_exact(&machine, &history, &table, 0, outer);
    assert_eq!(claim, Ok(()));
    history.objects[0].words.push(None);
    let claim = claims::view_is_exact(&machine, &history, &table, 0, outer);
    assert!(claim.is_err());
}

/// A write of 7 to the one data word of an object.
fn write(object: u64) -> Op {
    let (index, word) = (0, 7);
    Op::Write {
        object,
        index,
        word,
    }
}

/// A data word that nobody wrote is shown as the 0 of allocation, one that was as it was written.
#[test]
fn sees_a_view_of_other_words() {
    let (mut machine, mut history, outer, inner) = nested();
    run(&mut machine, &mut history, 0, write(outer));
    let views = |machine: &Machine| {
        let table = RightsTable::built_in();
        let view = |object| claims::view_is_exact(machine, &history, &table, 0, object).is_ok();
        [outer, inner].map(view)
    };
    assert_eq!(views(&machine), [true, true]);
    machine.supplied.scratch[2] = 0;
    assert_eq!(views(&machine), [false, true]);
    machine.supplied.scratch[34] = 7;
    assert_eq!(views(&machine), [false, false]);
}

/// The header, the slot and the data word of the object in scope 2, of which none was written.
#[test]
fn sees_a_word_marked_as_written() {
    for bit in 0..3 {
        let words = words_after(|machine, _, _, _| machine.supplied.written[32] |= 1 << bit);
        let number = 2_048 + bit;
        assert!(words.contains(&format!("word {number}, of 108000, is marked")));
        assert!(words.ends_with("as written: true"), "{words}");
    }
}

/// The write is accepted, and its bit is cleared after it.
#[test]
fn sees_a_written_word_that_is_not_marked() {
    let words = words_after(|machine, history, outer, _| {
        run(machine, history, 0, write(outer));
        machine.supplied.written[32] &= !4;
    });
    assert!(words.ends_with("as written: false"), "{words}");
}

/// The bits of an object that is gone mean nothing.
#[test]
fn bits_of_a_gone_object_are_not_asked_for() {
    let (mut machine, mut history, _, inner) = nested();
    run(&mut machine, &mut history, 0, write(inner));
    run(&mut machine, &mut history, 0, Op::Exit);
    assert_eq!(all_claims(&machine, &history), Ok(()));
    machine.supplied.written[32] ^= 0b111 << 32;
    assert_eq!(all_claims(&machine, &history), Ok(()));
}

/// Every read of the object in scope 2 has one answer: 2, 13, 5, 14, 19 in this order, or the word.
#[test]
fn sees_another_answer_to_a_read() {
    let (mut machine, mut history, outer, inner) = nested();
    run(&mut machine, &mut history, 0, Op::Exit);
    run(&mut machine, &mut history, 2, Op::Start { kind: 1 });
    let table = RightsTable::built_in();
    let read = |history: &History, thread, object, index, answer| {
        let op = Op::Read { object, index };
        claims::read_is_exact(history, &table, Call { thread, op }, answer).is_ok()
    };
    let word = Answer::accepted;
    let unwritten = Answer::refused(Refusal::Unwritten);
    let rows = [
        (3, outer, 0, Answer::refused(Refusal::Thread)),
        (16, inner, 1, Answer::refused(Refusal::Thread)),
        (0, inner, 0, Answer::refused(Refusal::Object)),
        (2, inner, 1, Answer::refused(Refusal::Object)),
        (2, outer, 1, Answer::refused(Refusal::Right)),
        (0, outer, 1, Answer::refused(Refusal::Index)),
        (0, outer, 0, unwritten),
    ];
    let answers = rows.map(|(_, _, _, answer)| answer);
    for (thread, object, index, expected) in rows {
        for answer in answers.into_iter().chain([word(0), word(7)]) {
            let told = read(&history, thread, object, index, answer);
            assert_eq!(told, answer == expected, "{thread} {object:x} {answer:?}");
        }
    }
    run(&mut machine, &mut history, 0, write(outer));
    assert!(read(&history, 0, outer, 0, word(7)));
    assert!(!read(&history, 0, outer, 0, word(0)));
    assert!(!read(&history, 0, outer, 0, unwritten));
}

/// Every start of a helper has one answer: 2, 2, 3, 4, 5 in this order, or 0. Thread 0 stands in
/// immortal memory and in the heap, the row's last.
#[test]
fn sees_another_answer_to_a_helper() {
    let (mut machine, mut history) = (Machine::for_frames(), History::new());
    let mut call = |op| run(&mut machine, &mut history, 0, op);
    call(Op::Start { kind: REAL_TIME });
    call(Op::Enter { area: 1 });
    call(Op::Enter { area: 0 });
    let built_in = RightsTable::built_in();
    let all_rights = RightsTable::from_text(&ALL_RIGHTS).expect("a table");
    let rows = [
        (1, 0, 16, built_in, 2),
        (16, 0, 16, built_in, 2),
        (0, 0, 16, built_in, 2),
        (0, 0, 0, built_in, 3),
        (0, 0, 1, built_in, 4),
        (0, 4, 15, all_rights, 4),
        (0, 1, 1, built_in, 5),
        (0, 3, 15, built_in, 5),
        (0, 2, 1, built_in, 0),
        (0, 1, 1, all_rights, 0),
        (0, 3, 15, all_rights, 0),
    ];
    for (thread, kind, helper, table, expected) in rows {
        let op = Op::StartHelper { kind, helper };
        let told = |status, value| {
            let answer = Answer { status, value };
            claims::helper_is_exact(&history, &table, Call { thread, op }, answer).is_ok()
        };
        for status in 0..=24 {
            assert_eq!(told(status, 0), status == expected, "{thread} {op:?}");
            assert!(!told(status, 1));
        }
    }
}

/// The claims on ancestors and counts reach a thread that never entered.
#[test]
fn sees_a_helper_in_other_areas() {
    let start = |machine: &mut Machine, history: &mut History| {
        let (kind, helper) = (REAL_TIME, 4);
        run(machine, history, 0, Op::StartHelper { kind, helper });
        assert_eq!(all_claims(machine, history), Ok(()));
    };
    let words = words_after(|machine, history, _, _| {
        start(machine, history);
        machine.state.threads[4].stack = vec![3];
    });
    assert_eq!(words, "stack 4 is [3], not [2, 3]");
    let words = words_after(|machine, history, _, _| {
        start(machine, history);
        machine.state.threads[4].stack = vec![3];
        history.rows[4] = Some(vec![3]);
    });
    assert!(words.contains("lacks an ancestor of 3"), "{words}");
    let words = words_after(|machine, history, _, _| {
        start(machine, history);
        machine.state.areas[3].count -= 1;
    });
    assert_eq!(words, "scope 3 has count 1, not 2");
}

/// The words of the claim that fails after a change of the state, where scope 4 of 20 words is made
/// beside the nested ones: its words are 2,112 to 2,131, its blocks 4 and 5.
fn words_of_blocks(change: impl FnOnce(&mut State)) -> String {
    words_after(|machine, history, _, _| {
        let (area, size) = (4, 20);
        run(machine, history, 0, Op::Make { area, size });
        assert_eq!(all_claims(machine, history), Ok(()));
        change(&mut machine.state);
    })
}

/// The size of its room is not the size as asked.
#[test]
fn sees_another_size() {
    let words = words_of_blocks(|state| state.areas[4].size = 32);
    assert_eq!(words, "scope 4 has size 32, made: true, the list tells 20");
}

#[test]
fn sees_scopes_that_nobody_made_or_removed() {
    let words = words_of_blocks(|state| state.areas[4].made = false);
    assert_eq!(words, "scope 4 has size 20, made: false, the list tells 20");
    let words = words_of_blocks(|state| state.areas[9].made = true);
    assert_eq!(words, "scope 9 has size 0, made: true, the list tells 0");
}

#[test]
fn sees_scopes_that_share_words() {
    let words = words_of_blocks(|state| state.areas[4].first -= 16);
    assert_eq!(words, "word 2096 is one of 3 and of 4");
}

/// Before scratch, between two blocks, and past the last block.
#[test]
fn sees_a_scope_outside_the_blocks() {
    for first in [0, 2_032, 2_111, 2_113, 6_128, 6_144] {
        let words = words_of_blocks(|state| state.areas[4].first = first);
        let end = first + 20;
        let expected = format!("scope 4 has words {first}..{end}, the blocks are 2048..6144");
        assert_eq!(words, expected);
    }
}

/// 40 words of scratch are two blocks and a rest of 8.
#[test]
fn sees_a_scope_in_the_rest_of_scratch() {
    let (mut machine, mut history) = (Machine::zeroed(0, 0, 40), History::new());
    let mut call = |op| run(&mut machine, &mut history, 0, op);
    call(Op::Start { kind: REAL_TIME });
    call(Op::Make { area: 2, size: 8 });
    assert_eq!(all_claims(&machine, &history), Ok(()));
    machine.state.areas[2].first = 32;
    let words = all_claims(&machine, &history).expect_err("a scope in the rest");
    assert_eq!(words, "scope 2 has words 32..40, the blocks are 0..32");
}

#[test]
fn sees_another_used_bit() {
    for block in 0..6 {
        let words = words_of_blocks(|state| state.used_blocks[block] = false);
        assert_eq!(words, format!("block {block} is used: false"));
    }
    for block in [6, 255] {
        let words = words_of_blocks(|state| state.used_blocks[block] = true);
        assert_eq!(words, format!("block {block} is used: true"));
    }
    let words = words_of_blocks(|state| state.used_blocks.push(false));
    assert_eq!(words, "257 used bits of 256 blocks");
}

/// The last exit must not free the room, and a removal must.
#[test]
fn sees_room_freed_too_early_or_never() {
    let words = words_after(|machine, history, _, _| {
        run(machine, history, 0, Op::Exit);
        machine.state.used_blocks[2..4].fill(false);
    });
    assert_eq!(words, "block 2 is used: false");
    let words = words_after(|machine, history, _, _| {
        run(machine, history, 0, Op::Exit);
        let kept = machine.state.used_blocks.clone();
        run(machine, history, 0, Op::Remove { area: 3 });
        assert_eq!(all_claims(machine, history), Ok(()));
        machine.state.used_blocks = kept;
    });
    assert_eq!(words, "block 2 is used: true");
}

/// A removal that resets the generation.
#[test]
fn sees_a_handle_given_again_after_a_removal() {
    let words = words_after(|machine, history, _, _| {
        run(machine, history, 0, Op::Exit);
        run(machine, history, 0, Op::Remove { area: 3 });
        machine.state.areas[3].generation = 0;
        run(machine, history, 0, Op::Make { area: 3, size: 9 });
        run(machine, history, 0, Op::Enter { area: 3 });
        run(machine, history, 0, Op::Allocate { slots: 1, data: 1 });
    });
    assert!(words.contains("given twice"), "{words}");
}

/// Every removal has one answer: 2, 6, 20 in this order, or 0. Scope 2 is open, 3 closed, 4 not made.
#[test]
fn sees_another_answer_to_a_removal() {
    let (mut machine, mut history, _, _) = nested();
    run(&mut machine, &mut history, 0, Op::Exit);
    let rows = [
        (2, 3, 2),
        (16, 2, 2),
        (u64::MAX, 64, 2),
        (0, 0, 6),
        (1, 1, 6),
        (0, 4, 6),
        (0, 64, 6),
        (1, u64::MAX, 6),
        (0, 2, 20),
        (1, 2, 20),
        (0, 3, 0),
        (1, 3, 0),
    ];
    for (thread, area, expected) in rows {
        let op = Op::Remove { area };
        let call = Call { thread, op };
        for status in 0..=24 {
            let told = |value| {
                let answer = Answer { status, value };
                claims::removal_is_exact(&history, call, answer).is_ok()
            };
            assert_eq!(told(0), status == expected, "{call:?}");
            assert!(!told(1));
        }
        assert_eq!(machine.clone().run(call).status, expected);
    }
}

/// The last accepted word of a handle and an index, and none for a new object over the same words.
#[test]
fn history_keeps_the_words_last_written() {
    let (mut machine, mut history, outer, inner) = nested();
    let words = |history: &History, handle| history.live_object(handle).map(|o| o.words.clone());
    assert_eq!(words(&history, inner), Some(vec![None]));
    let refused = Answer::refused(Refusal::Index);
    let (thread, op) = (0, write(inner));
    history.step(Call { thread, op }, refused);
    assert_eq!(words(&history, inner), Some(vec![None]));
    for word in [8, 0] {
        let (object, index) = (inner, 0);
        let op = Op::Write {
            object,
            index,
            word,
        };
        run(&mut machine, &mut history, 0, op);
        assert_eq!(words(&history, inner), Some(vec![Some(word)]));
    }
    assert_eq!(words(&history, outer), Some(vec![None]));
    run(&mut machine, &mut history, 0, Op::Exit);
    assert_eq!(words(&history, inner), None);
    run(&mut machine, &mut history, 0, Op::Enter { area: 3 });
    let op = Op::Allocate { slots: 0, data: 2 };
    let again = run(&mut machine, &mut history, 0, op);
    assert_eq!(words(&history, again), Some(vec![None; 2]));
}

/// The trial compares with zeroed words, and sees a machine that goes its own way.
#[test]
fn trial_sees_another_answer() {
    let mut trial = Trial::new(1, FRAME_SIZES);
    let op = Op::Start { kind: REAL_TIME };
    let start = Call { thread: 0, op };
    assert_eq!(trial.call(start), Ok(()));
    let op = Op::Exit;
    trial.zeroed.state.threads[0].kind = None;
    let words = trial.call(Call { thread: 0, op });
    assert!(words.expect_err("answers agree").contains("zeroed"));
}

/// An op 08 that yields 15 is a violation: a lent word that no call stored.
#[test]
fn trial_sees_a_15_of_op_08() {
    let mut trial = Trial::new(1, FRAME_SIZES);
    let mut call = |op| {
        let claim = trial.call(Call { thread: 0, op });
        assert_eq!(claim, Ok(()));
    };
    call(Op::Start { kind: REAL_TIME });
    call(Op::Allocate { slots: 1, data: 0 });
    trial.machine.supplied.permanent[1] = 1;
    trial.zeroed.supplied.permanent[1] = 1;
    let (object, slot) = (1 << 20, 0);
    let op = Op::Load { object, slot };
    let words = trial.call(Call { thread: 0, op });
    assert_eq!(words, Err("op 08 yields 15".into()));
}

const ALL_RIGHTS: [u8; DIGITS] = [b'1'; DIGITS];

/// One load of a table of all rights, with an answer and a book before it that has a thread or not.
fn one_load(answer: Answer, running: bool) -> Loads {
    let mut history = History::new();
    if running {
        history.rows[3] = Some(vec![]);
    }
    let mut loads = Loads::default();
    loads.step(&history, Text::new(&ALL_RIGHTS), answer);
    loads
}

#[test]
fn sees_another_table_in_force() {
    let mut machine = Machine::for_frames();
    assert_eq!(claims::loads_hold(&machine, &Loads::default()), Ok(()));
    // A refused load must leave the old table, an accepted one must not.
    let refused = one_load(Answer::refused(Refusal::Running), true);
    let accepted = one_load(Answer::accepted(0), false);
    assert_eq!(claims::loads_hold(&machine, &refused), Ok(()));
    let words = claims::loads_hold(&machine, &accepted).expect_err("another table");
    assert!(words.contains("in force is 111100110000"), "{words}");
    machine.state.rights = accepted.table();
    assert_eq!(claims::loads_hold(&machine, &accepted), Ok(()));
    assert!(claims::loads_hold(&machine, &refused).is_err());
    assert!(claims::loads_hold(&machine, &Loads::default()).is_err());
}

#[test]
fn sees_a_load_beside_a_thread() {
    let mut machine = Machine::for_frames();
    let loads = one_load(Answer::accepted(0), true);
    machine.state.rights = loads.table();
    let words = claims::loads_hold(&machine, &loads).expect_err("a started thread");
    assert!(words.contains("expected 24"), "{words}");
}

#[test]
fn sees_a_load_refused_without_a_reason() {
    let machine = Machine::for_frames();
    for refusal in [Refusal::Table, Refusal::Running] {
        let loads = one_load(Answer::refused(refusal), false);
        let words = claims::loads_hold(&machine, &loads).expect_err("no reason");
        assert!(words.contains("expected 0"), "{words}");
    }
}

/// A view that the table in force allows and the list's does not.
#[test]
fn sees_a_view_by_another_table() {
    let (mut machine, history, outer, _) = nested();
    machine.state.threads[0].kind = Some(Kind::Ordinary);
    let claim = claims::view_is_exact(&machine, &history, &RightsTable::built_in(), 0, outer);
    assert!(claim.is_err());
}

/// The trial sees a load that goes its own way: here the machine's threads are not the book's.
#[test]
fn trial_sees_a_load_that_is_not_told() {
    let mut trial = Trial::new(1, FRAME_SIZES);
    let op = Op::Start { kind: REAL_TIME };
    assert_eq!(trial.call(Call { thread: 0, op }), Ok(()));
    for machine in [&mut trial.machine, &mut trial.zeroed] {
        machine.state.threads[0].kind = None;
    }
    let words = trial.load_rights(Text::new(BUILT_IN)).expect_err("it runs");
    assert!(words.contains("thread 0 has kind"), "{words}");
}

/// The book is fed arguments and answers alone.
#[test]
fn history_keeps_rows_parents_and_objects() {
    let (mut machine, mut history, outer, inner) = nested();
    assert_eq!(history.rows[0], Some(vec![2, 3]));
    assert_eq!(history.rows[1], Some(vec![2]));
    assert_eq!(history.rows[2], None);
    assert_eq!(history.parents[&2], None);
    assert_eq!(history.parents[&3], Some(2));
    let handles =
        |history: &History| -> Vec<u64> { history.live_objects().map(|o| o.handle).collect() };
    assert_eq!(handles(&history), [outer, inner]);
    let refused = Answer {
        status: 2,
        value: 0,
    };
    let op = Op::Exit;
    history.step(Call { thread: 0, op }, refused);
    assert_eq!(history.rows[0], Some(vec![2, 3]));
    run(&mut machine, &mut history, 0, Op::Exit);
    assert_eq!(handles(&history), [outer]);
    assert!(!history.parents.contains_key(&3));
    run(&mut machine, &mut history, 0, Op::Exit);
    assert_eq!(handles(&history), [outer]);
    run(&mut machine, &mut history, 1, Op::Exit);
    assert_eq!(handles(&history), [0; 0]);
    run(&mut machine, &mut history, 1, Op::End);
    assert_eq!(history.rows[1], None);
}

/// A copy of the starter's row, with the helper's own kind; a scope is emptied by the last of both.
#[test]
fn history_keeps_the_rows_of_helpers() {
    let (mut machine, mut history, outer, inner) = nested();
    let (kind, helper) = (3, 7);
    let op = Op::StartHelper { kind, helper };
    let call = Call { thread: 0, op };
    history.step(call, Answer::refused(Refusal::Started));
    assert_eq!((&history.rows[7], history.kinds[7]), (&None, None));
    run(&mut machine, &mut history, 0, op);
    assert_eq!(history.rows[7], Some(vec![2, 3]));
    assert_eq!(history.kinds[7], Some(Kind::NoHeap));
    assert_eq!(history.rows[0], Some(vec![2, 3]));
    assert_eq!(history.kinds[0], Some(Kind::RealTime));
    assert_eq!([2, 3, 4].map(|scope| history.entries(scope)), [3, 2, 0]);
    run(&mut machine, &mut history, 0, Op::Exit);
    assert!(history.live_object(inner).is_some());
    assert_eq!(history.parents[&3], Some(2));
    run(&mut machine, &mut history, 7, Op::Exit);
    assert!(history.live_object(inner).is_none());
    assert!(history.live_object(outer).is_some());
    assert!(!history.parents.contains_key(&3));
}

/// The sizes as asked, of accepted calls alone.
#[test]
fn history_keeps_the_sizes_of_made_scopes() {
    let (mut machine, mut history, _, _) = nested();
    let made = |history: &History| [0, 1, 2, 3, 4, 64].map(|area| history.is_made_scope(area));
    assert_eq!(history.sizes[..5], [0, 0, 20, 20, 0]);
    assert_eq!(made(&history), [false, false, true, true, false, false]);
    for op in [Op::Make { area: 4, size: 9 }, Op::Remove { area: 2 }] {
        let refused = Answer::refused(Refusal::Thread);
        history.step(Call { thread: 9, op }, refused);
        assert_eq!(history.sizes[..5], [0, 0, 20, 20, 0]);
    }
    run(&mut machine, &mut history, 0, Op::Exit);
    assert_eq!(history.sizes[..5], [0, 0, 20, 20, 0]);
    run(&mut machine, &mut history, 0, Op::Remove { area: 3 });
    assert_eq!(history.sizes[..5], [0, 0, 20, 0, 0]);
    assert_eq!(made(&history), [false, false, true, false, false, false]);
    let (area, size) = (3, 33);
    run(&mut machine, &mut history, 0, Op::Make { area, size });
    assert_eq!(history.sizes[..5], [0, 0, 20, 33, 0]);
}

/// Thread 0 in scope 2 with an object that refers to itself, the first of whose two data words was
/// written; the words of the claim that fails at a last call, after a change of both machines of the
/// trial.
fn words_of_last(change: impl Fn(&mut Machine, u64), last: impl FnOnce(u64) -> Op) -> String {
    let mut trial = Trial::new(1, FRAME_SIZES);
    let mut call = |op| trial.call(Call { thread: 0, op });
    let start = Op::Start { kind: REAL_TIME };
    let make = Op::Make { area: 2, size: 20 };
    for op in [
        start,
        make,
        Op::Enter { area: 2 },
        Op::Enter { area: 0 },
        Op::Exit,
    ] {
        assert_eq!(call(op), Ok(()));
    }
    assert_eq!(call(Op::Allocate { slots: 1, data: 2 }), Ok(()));
    let object = trial.history.objects[0].handle;
    let (slot, target) = (0, object);
    let store = Op::Store {
        object,
        slot,
        target,
    };
    for op in [store, write(object)] {
        assert_eq!(trial.call(Call { thread: 0, op }), Ok(()));
    }
    change(&mut trial.machine, object);
    change(&mut trial.zeroed, object);
    let op = last(object);
    let claim = trial.call(Call { thread: 0, op });
    claim.expect_err("every claim holds")
}

/// An exit that invents the count left.
#[test]
fn trial_sees_another_count_left() {
    let words = words_of_last(|machine, _| machine.state.areas[2].count = 2, |_| Op::Exit);
    assert!(words.contains("the list tells 0"), "{words}");
}

/// A helper that the table in force refuses, and the list's does not.
#[test]
fn trial_sees_another_answer_to_a_helper() {
    let none = RightsTable::from_text(&[b'0'; DIGITS]).expect("a table");
    let (kind, helper) = (REAL_TIME, 1);
    let op = Op::StartHelper { kind, helper };
    let words = words_of_last(|machine, _| machine.state.rights = none, |_| op);
    assert!(words.contains("(5, 0), the list tells 0"), "{words}");
}

/// A removal of a scope that is open by the list alone.
#[test]
fn trial_sees_another_answer_to_a_removal() {
    let close = |machine: &mut Machine, _| machine.state.areas[2].count = 0;
    let words = words_of_last(close, |_| Op::Remove { area: 2 });
    assert!(words.contains("(0, 0), the list tells 20"), "{words}");
}

/// A scope that is made again begins with its first generation.
#[test]
fn trial_sees_a_generation_that_does_not_go_on() {
    let mut trial = Trial::new(1, FRAME_SIZES);
    let make = Op::Make { area: 2, size: 20 };
    let enter = Op::Enter { area: 2 };
    let remove = Op::Remove { area: 2 };
    let start = Op::Start { kind: REAL_TIME };
    for op in [start, make, enter, Op::Exit, remove, make] {
        assert_eq!(trial.call(Call { thread: 0, op }), Ok(()));
    }
    for machine in [&mut trial.machine, &mut trial.zeroed] {
        machine.state.areas[2].generation = 0;
    }
    let op = enter;
    let words = trial.call(Call { thread: 0, op }).expect_err("it goes on");
    assert!(words.contains("1 is yielded, the list tells 2"), "{words}");
}

#[test]
fn trial_sees_another_generation() {
    let make = |machine: &mut Machine, _| {
        machine.state.areas[3].made = true;
        machine.state.areas[3].generation = 6;
    };
    let words = words_of_last(make, |_| Op::Enter { area: 3 });
    assert!(words.contains("7 is yielded, the list tells 1"), "{words}");
}

#[test]
fn trial_sees_another_word_loaded() {
    let clear = |machine: &mut Machine, _| machine.supplied.scratch[1] = 0;
    let words = words_of_last(clear, |object| Op::Load { object, slot: 0 });
    assert!(words.contains("0 is yielded, the list tells"), "{words}");
}

#[test]
fn trial_sees_another_word_read() {
    let clear = |machine: &mut Machine, _| machine.supplied.scratch[2] = 0;
    let words = words_of_last(clear, |object| Op::Read { object, index: 0 });
    assert!(words.contains("reads Ok(0), the list tells Ok(7)"));
}

/// A stale bit: the 0 of allocation is read as if it had been written.
#[test]
fn trial_sees_a_word_read_that_nobody_wrote() {
    let mark = |machine: &mut Machine, _| machine.supplied.set_written(2_048 + 3, true);
    let words = words_of_last(mark, |object| Op::Read { object, index: 1 });
    assert!(words.contains("reads Ok(0), the list tells Err(19)"));
}

#[test]
fn trial_sees_a_written_word_refused() {
    let clear = |machine: &mut Machine, _| machine.supplied.set_written(2_048 + 2, false);
    let words = words_of_last(clear, |object| Op::Read { object, index: 0 });
    assert!(words.contains("reads Err(19), the list tells Ok(7)"));
}
