//! The "small input" of each refusal, and the order of each row.

mod common;

use common::{buffers, Bench, NO_HEAP, ORDINARY, REAL_TIME};
use reference::calls::{Call, Op};
use reference::memory::Memory;
use reference::state::LAST_GENERATION;

/// A real-time thread in scope 2 of 8 words.
fn in_scope() -> Bench {
    let mut bench = Bench::with_threads(&[REAL_TIME]).and_scopes(&[(2, 8)]);
    assert_eq!(bench.enter(0, 2), (0, 1));
    bench
}

#[test]
fn number_1_scratch_one_word_short() {
    every_call_gives_1(|supplied| supplied.scratch.pop());
}

#[test]
fn number_1_written_map_one_word_short() {
    every_call_gives_1(|supplied| supplied.written.pop());
}

/// Every call is refused by 1 and alters nothing where a buffer has lost a word.
fn every_call_gives_1(shorten: impl FnOnce(&mut Memory) -> Option<u64>) {
    let mut bench = in_scope();
    let object = bench.object(0, 1, 1);
    let kept = bench.machine.state.clone();
    let mut supplied = bench.machine.supplied.clone();
    assert!(shorten(&mut supplied).is_some());
    let short = supplied.clone();
    let ops = [
        Op::Start { kind: 0 },
        Op::End,
        Op::Make { area: 3, size: 1 },
        Op::Enter { area: 0 },
        Op::Exit,
        Op::Allocate { slots: 0, data: 0 },
        Op::Store {
            object,
            slot: 0,
            target: 0,
        },
        Op::Load { object, slot: 0 },
        Op::Write {
            object,
            index: 0,
            word: 1,
        },
        Op::Read { object, index: 0 },
        Op::StartHelper { kind: 0, helper: 9 },
        Op::Remove { area: 2 },
        Op::Remove { area: 99 },
    ];
    for op in ops {
        // Thread 99 would give 2.
        for thread in [0, 99] {
            let answer = bench.machine.state.run(&mut supplied, Call { thread, op });
            assert_eq!((answer.status, answer.value), (1, 0), "{op:?}");
        }
    }
    let state = &bench.machine.state;
    assert_eq!(state.view_status_of(&supplied, 99, object).status, 1);
    assert_eq!(state.view_of(&supplied, 0, object).len(), 0);
    assert_eq!(*state, kept);
    assert_eq!(supplied, short);
}

#[test]
fn number_1_each_length_counts() {
    let bench = in_scope();
    let mut state = bench.machine.state.clone();
    for buffer in 0..4 {
        for longer in [false, true] {
            let mut supplied = bench.machine.supplied.clone();
            let words = &mut buffers(&mut supplied)[buffer];
            words.resize(words.len() + 2 * usize::from(longer) - 1, 0);
            let op = Op::Exit;
            let answer = state.run(&mut supplied, Call { thread: 0, op });
            assert_eq!(answer.status, 1, "buffer {buffer}, longer {longer}");
        }
    }
}

#[test]
fn number_2_thread() {
    let mut bench = Bench::with_threads(&[REAL_TIME]);
    assert_eq!(bench.enter(16, 0), (2, 0));
    assert_eq!(bench.enter(1, 0), (2, 0));
    assert_eq!(bench.start(16, 2), (2, 0));
    assert_eq!(bench.start(u64::MAX, 0), (2, 0));
    assert_eq!(bench.start(15, 2), (0, 0));
    assert_eq!(bench.end(15), (0, 0));
    assert_eq!(bench.end(15), (2, 0));
}

#[test]
fn number_2_comes_before_the_rest() {
    let mut bench = Bench::new();
    assert_eq!(bench.make(3, 99, 0), (2, 0));
    assert_eq!(bench.enter(3, 99), (2, 0));
    assert_eq!(bench.exit(3), (2, 0));
    assert_eq!(bench.allocate(3, u64::MAX, u64::MAX), (2, 0));
    assert_eq!(bench.store(3, 0, 9, 1), (2, 0));
    assert_eq!(bench.load(3, 0, 9), (2, 0));
    assert_eq!(bench.write(3, 0, 9, 1), (2, 0));
    assert_eq!(bench.read(3, 0, 9), (2, 0));
    assert_eq!(bench.start_helper(3, 0, 3), (2, 0));
    assert_eq!(bench.remove(3, 99), (2, 0));
    assert_eq!(bench.view_answer(3, 0), (2, 0));
}

#[test]
fn number_3_started() {
    let mut bench = Bench::with_threads(&[REAL_TIME]);
    assert_eq!(bench.start(0, 2), (3, 0));
    // Before the kind is looked at.
    assert_eq!(bench.start(0, 0), (3, 0));
}

#[test]
fn number_4_kind() {
    let mut bench = Bench::new();
    assert_eq!(bench.start(0, 0), (4, 0));
    assert_eq!(bench.start(0, 4), (4, 0));
    assert_eq!(bench.start(0, u64::MAX), (4, 0));
    assert_eq!(bench.start(0, 3), (0, 0));
}

/// The statuses of entering, allocating in, using and referring to each class, by the printed table.
#[test]
fn number_5_rights_of_entry() {
    let bench = Bench::with_threads(&[REAL_TIME, ORDINARY, NO_HEAP]);
    let mut bench = bench.and_scopes(&[(2, 8)]);
    let expected = [(0, [0, 0, 0]), (1, [0, 5, 5]), (2, [5, 0, 0])];
    for (thread, statuses) in expected {
        for (area, status) in (0..).zip(statuses) {
            assert_eq!(bench.enter(thread, area).0, status, "{thread} in {area}");
            if status == 0 {
                bench.exit(thread);
            }
        }
    }
}

#[test]
fn number_5_rights_of_use_and_reference() {
    let bench = Bench::with_threads(&[REAL_TIME, ORDINARY, NO_HEAP]);
    let mut bench = bench.and_scopes(&[(2, 16)]);
    let heap = bench.object(0, 1, 1);
    bench.enter(0, 1);
    let immortal = bench.object(0, 1, 1);
    bench.enter(0, 2);
    let scope = bench.object(0, 1, 1);
    let expected = [(heap, [0, 0, 5]), (immortal, [0, 0, 0]), (scope, [0, 5, 0])];
    for (object, statuses) in expected {
        for (thread, status) in (0..).zip(statuses) {
            assert_eq!(bench.write(thread, object, 0, 7).0, status);
            assert_eq!(bench.read(thread, object, 0).0, status);
            assert_eq!(bench.load(thread, object, 0).0, status);
            assert_eq!(bench.store(thread, object, 0, 0).0, status);
            assert_eq!(bench.view_answer(thread, object), (status, 0));
            // R comes before the assignment rule's 16.
            let reference = bench.store(thread, immortal, 0, object).0;
            let forbidden = if object == scope { 16 } else { 0 };
            let expected = if status == 5 { 5 } else { forbidden };
            assert_eq!(reference, expected, "{thread} stores {object:x}");
        }
    }
}

#[test]
fn number_5_loaded_reference() {
    let mut bench = Bench::with_threads(&[REAL_TIME, NO_HEAP]);
    let heap = bench.object(0, 0, 0);
    bench.enter(0, 1);
    let immortal = bench.object(0, 2, 0);
    assert_eq!(bench.store(0, immortal, 0, heap), (0, 0));
    assert_eq!(bench.load(0, immortal, 0), (0, heap));
    assert_eq!(bench.load(1, immortal, 0), (5, 0));
    // "null always passes"
    assert_eq!(bench.load(1, immortal, 1), (0, 0));
}

#[test]
fn number_6_area() {
    let mut bench = Bench::with_threads(&[REAL_TIME, ORDINARY]);
    assert_eq!(bench.enter(0, 9), (6, 0));
    assert_eq!(bench.enter(0, 64), (6, 0));
    assert_eq!(bench.enter(0, u64::MAX), (6, 0));
    // 6 before 5: an ordinary thread has no right to any scope.
    assert_eq!(bench.enter(1, 9), (6, 0));
    for area in [0, 1, 64, 0xffff, u64::MAX] {
        assert_eq!(bench.make(0, area, 0), (6, 0));
    }
    assert_eq!(bench.make(0, 63, 1), (0, 0));
    assert_eq!(bench.enter(1, 63), (5, 0));
}

#[test]
fn number_7_made() {
    let mut bench = Bench::with_threads(&[REAL_TIME]).and_scopes(&[(2, 1)]);
    assert_eq!(bench.make(0, 2, 1), (7, 0));
    // Before the size is looked at.
    assert_eq!(bench.make(0, 2, 0), (7, 0));
}

#[test]
fn number_8_size() {
    let mut bench = Bench::with_threads(&[ORDINARY]);
    assert_eq!(bench.make(0, 2, 0), (8, 0));
    assert_eq!(bench.make(0, 2, 4_097), (8, 0));
    assert_eq!(bench.make(0, 2, u64::MAX), (8, 0));
    assert_eq!(bench.make(0, 2, 4_096), (0, 0));
}

#[test]
fn number_9_entries() {
    let bench = Bench::with_threads(&[REAL_TIME]);
    let mut bench = bench.and_scopes(&[(2, 4), (3, 4)]);
    bench.enter(0, 2);
    for _ in 0..31 {
        assert_eq!(bench.enter(0, 0), (0, 1));
    }
    assert_eq!(bench.enter(0, 0), (9, 0));
    // 9 before 10, and 6 before 9.
    assert_eq!(bench.enter(0, 2), (9, 0));
    assert_eq!(bench.enter(0, 4), (6, 0));
    assert_eq!(bench.exit(0), (0, 0));
    assert_eq!(bench.enter(0, 2), (10, 0));
    assert_eq!(bench.enter(0, 3), (0, 1));
}

#[test]
fn number_9_after_the_right() {
    let mut bench = Bench::with_threads(&[NO_HEAP]);
    for _ in 0..32 {
        assert_eq!(bench.enter(0, 1), (0, 1));
    }
    assert_eq!(bench.enter(0, 0), (5, 0));
    assert_eq!(bench.enter(0, 1), (9, 0));
}

#[test]
fn number_10_parent() {
    let mut bench = in_scope();
    assert_eq!(bench.enter(0, 2), (10, 0));
    bench.enter(0, 0);
    assert_eq!(bench.enter(0, 2), (10, 0));
}

#[test]
fn number_10_not_after_a_scope_was_emptied() {
    let bench = Bench::with_threads(&[REAL_TIME]);
    let mut bench = bench.and_scopes(&[(2, 4), (3, 4)]);
    bench.enter(0, 2);
    bench.enter(0, 3);
    bench.exit(0);
    bench.exit(0);
    // 3 was under 2; it may now be over it.
    assert_eq!(bench.enter(0, 3), (0, 2));
    assert_eq!(bench.enter(0, 2), (0, 2));
    assert_eq!(bench.machine.state.area(2).parent, Some(3));
}

#[test]
fn number_11_entries() {
    let mut bench = Bench::with_threads(&[REAL_TIME]);
    assert_eq!(bench.exit(0), (11, 0));
    bench.enter(0, 0);
    assert_eq!(bench.end(0), (11, 0));
    assert_eq!(bench.exit(0), (0, 0));
    assert_eq!(bench.end(0), (0, 0));
}

#[test]
fn number_12_room() {
    let mut bench = in_scope();
    assert_eq!(bench.allocate(0, 0, 8), (12, 0));
    assert_eq!(bench.allocate(0, 8, 0), (12, 0));
    // Sums that would wrap to a fit.
    assert_eq!(bench.allocate(0, 0, u64::MAX), (12, 0));
    assert_eq!(bench.allocate(0, u64::MAX, u64::MAX), (12, 0));
    assert_eq!(bench.allocate(0, 3, u64::MAX - 3), (12, 0));
    assert_eq!(bench.allocate(0, 0, 7).0, 0);
    assert_eq!(bench.allocate(0, 0, 0), (12, 0));
}

#[test]
fn number_13_object() {
    let mut bench = in_scope();
    assert_eq!(bench.read(0, 0, 0), (13, 0));
    let object = bench.object(0, 1, 1);
    // 13 before 14 and 15.
    assert_eq!(bench.store(0, object + 1, 9, 1), (13, 0));
    assert_eq!(bench.write(0, object + 1, 9, 1), (13, 0));
    assert_eq!(bench.load(0, object ^ 1 << 20, 9), (13, 0));
    assert_eq!(bench.view_answer(0, object + 1), (13, 0));
    assert_eq!(bench.write(0, object, 0, 4), (0, 0));
    assert_eq!(bench.read(0, object, 0), (0, 4));
    bench.exit(0);
    assert_eq!(bench.read(0, object, 0), (13, 0));
    bench.enter(0, 2);
    let again = bench.object(0, 1, 1);
    assert_ne!(object, again);
    assert_eq!(bench.read(0, object, 0), (13, 0));
    assert_eq!(bench.write(0, again, 0, 5), (0, 0));
    assert_eq!(bench.read(0, again, 0), (0, 5));
}

#[test]
fn number_14_index() {
    let mut bench = in_scope();
    let object = bench.object(0, 1, 2);
    assert_eq!(bench.load(0, object, 1), (14, 0));
    assert_eq!(bench.load(0, object, u64::MAX), (14, 0));
    // 14 before 15.
    assert_eq!(bench.store(0, object, 1, 1), (14, 0));
    assert_eq!(bench.write(0, object, 2, 1), (14, 0));
    assert_eq!(bench.read(0, object, 2), (14, 0));
    assert_eq!(bench.read(0, object, u64::MAX), (14, 0));
    assert_eq!(bench.write(0, object, 1, 9), (0, 0));
    assert_eq!(bench.read(0, object, 1), (0, 9));
    assert_eq!(bench.load(0, object, 0), (0, 0));
}

#[test]
fn number_14_after_the_right() {
    let bench = Bench::with_threads(&[REAL_TIME, ORDINARY]);
    let mut bench = bench.and_scopes(&[(2, 8)]);
    bench.enter(0, 2);
    let object = bench.object(0, 1, 1);
    assert_eq!(bench.store(1, object, 9, 1), (5, 0));
    assert_eq!(bench.load(1, object, 9), (5, 0));
    assert_eq!(bench.write(1, object, 9, 1), (5, 0));
    assert_eq!(bench.read(1, object, 9), (5, 0));
}

#[test]
fn number_15_target() {
    let mut bench = in_scope();
    let object = bench.object(0, 1, 0);
    assert_eq!(bench.store(0, object, 0, 1), (15, 0));
    assert_eq!(bench.store(0, object, 0, object), (0, 0));
    assert_eq!(bench.load(0, object, 0), (0, object));
}

/// A lent word that no call stored; the list of the third demand has none.
#[test]
fn number_15_loaded_word() {
    let mut bench = in_scope();
    let object = bench.object(0, 1, 0);
    bench.machine.supplied.scratch[1] = 1;
    assert_eq!(bench.load(0, object, 0), (15, 0));
}

#[test]
fn number_16_assignment() {
    let bench = Bench::with_threads(&[REAL_TIME]);
    let mut bench = bench.and_scopes(&[(2, 8)]);
    let heap = bench.object(0, 1, 0);
    bench.enter(0, 2);
    let scope = bench.object(0, 1, 0);
    assert_eq!(bench.store(0, heap, 0, scope), (16, 0));
    assert_eq!(bench.store(0, scope, 0, heap), (0, 0));
    assert_eq!(bench.load(0, heap, 0), (0, 0));
}

/// "Comparing the depth alone: sibling scopes pass."
#[test]
fn number_16_siblings() {
    let bench = Bench::with_threads(&[REAL_TIME, REAL_TIME]);
    let mut bench = bench.and_scopes(&[(2, 8), (3, 8), (4, 8)]);
    bench.enter(0, 2);
    bench.enter(0, 3);
    let left = bench.object(0, 1, 0);
    bench.enter(1, 2);
    bench.enter(1, 4);
    let right = bench.object(1, 1, 0);
    assert_eq!(bench.store(0, left, 0, right), (16, 0));
    assert_eq!(bench.store(1, right, 0, left), (16, 0));
}

/// "the walk decides": the storing thread stands in neither scope.
#[test]
fn walk_decides_for_a_thread_outside() {
    let bench = Bench::with_threads(&[REAL_TIME, REAL_TIME]);
    let mut bench = bench.and_scopes(&[(2, 8), (3, 8)]);
    bench.enter(0, 2);
    let outer = bench.object(0, 1, 0);
    bench.enter(0, 3);
    let inner = bench.object(0, 1, 0);
    assert_eq!(bench.store(1, inner, 0, outer), (0, 0));
    assert_eq!(bench.store(1, outer, 0, inner), (16, 0));
}

#[test]
fn number_17_last_generation() {
    assert_eq!(LAST_GENERATION, (1 << 44) - 1);
    let bench = Bench::with_threads(&[REAL_TIME, REAL_TIME]);
    let mut bench = bench.and_scopes(&[(2, 8)]);
    bench.machine.state.areas[2].generation = LAST_GENERATION - 1;
    assert_eq!(bench.enter(0, 2), (0, LAST_GENERATION));
    let object = bench.object(0, 0, 1);
    assert_eq!(object >> 20, LAST_GENERATION);
    assert_eq!(bench.write(0, object, 0, 5), (0, 0));
    // Open, it may still be entered.
    assert_eq!(bench.enter(1, 2), (0, LAST_GENERATION));
    bench.exit(1);
    bench.exit(0);
    let closed = bench.machine.clone();
    assert_eq!(bench.enter(0, 2), (17, 0));
    assert_eq!(bench.machine, closed);
}

#[test]
fn number_17_after_9() {
    let mut bench = Bench::with_threads(&[REAL_TIME]).and_scopes(&[(2, 8)]);
    bench.machine.state.areas[2].generation = LAST_GENERATION;
    for _ in 0..32 {
        bench.enter(0, 0);
    }
    assert_eq!(bench.enter(0, 2), (9, 0));
    bench.exit(0);
    assert_eq!(bench.enter(0, 2), (17, 0));
}

#[test]
fn number_19_unwritten() {
    let mut bench = in_scope();
    let object = bench.object(0, 1, 2);
    assert_eq!(bench.read(0, object, 0), (19, 0));
    assert_eq!(bench.write(0, object, 0, 9), (0, 0));
    assert_eq!(bench.read(0, object, 0), (0, 9));
    assert_eq!(bench.read(0, object, 1), (19, 0));
}

/// "after 14", and so after 13 and 5.
#[test]
fn number_19_comes_last() {
    let bench = Bench::with_threads(&[REAL_TIME, ORDINARY]);
    let mut bench = bench.and_scopes(&[(2, 8)]);
    bench.enter(0, 2);
    let object = bench.object(0, 1, 2);
    for index in [2, 3, 4, u64::MAX] {
        assert_eq!(bench.read(0, object, index), (14, 0));
    }
    assert_eq!(bench.read(0, object, 1), (19, 0));
    assert_eq!(bench.read(1, object, 1), (5, 0));
    assert_eq!(bench.read(2, object, 1), (2, 0));
    bench.exit(0);
    assert_eq!(bench.read(0, object, 1), (13, 0));
}

/// "Exit takes off the top entry", yielding the "scope's count left, else 0".
#[test]
fn exit_yields_the_count_left() {
    let bench = Bench::with_threads(&[REAL_TIME, REAL_TIME, NO_HEAP]);
    let mut bench = bench.and_scopes(&[(2, 8)]);
    for thread in 0..3 {
        assert_eq!(bench.enter(thread, 2), (0, 1));
    }
    bench.enter(0, 0);
    assert_eq!(bench.exit(0), (0, 0));
    assert_eq!(bench.exit(0), (0, 2));
    assert_eq!(bench.exit(1), (0, 1));
    assert_eq!(bench.exit(2), (0, 0));
}

/// "at 0 the scope has no parent and no used words"; an entry "sets ... its used words to 0".
#[test]
fn emptied_scope_has_no_parent_and_no_used_words() {
    let bench = Bench::with_threads(&[REAL_TIME]);
    let mut bench = bench.and_scopes(&[(2, 8), (3, 8)]);
    bench.enter(0, 2);
    bench.enter(0, 3);
    bench.object(0, 1, 1);
    assert_eq!(bench.machine.state.area(3).used, 3);
    assert_eq!(bench.machine.state.area(3).parent, Some(2));
    bench.exit(0);
    assert_eq!(bench.machine.state.area(3).used, 0);
    assert_eq!(bench.machine.state.area(3).parent, None);
    bench.machine.state.areas[3].used = 5;
    bench.enter(0, 3);
    assert_eq!(bench.machine.state.area(3).used, 0);
}
