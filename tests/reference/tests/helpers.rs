//! "Helper threads born inside a sample": op 0b.

mod common;

use common::{Bench, NO_HEAP, ORDINARY, REAL_TIME};
use reference::rights::{Kind, BUILT_IN, DIGITS};
use reference::state::THREADS;

/// Real-time thread 0 in scopes 2 and 3; scope 4 is made.
fn in_two_scopes() -> Bench {
    let bench = Bench::with_threads(&[REAL_TIME]);
    let mut bench = bench.and_scopes(&[(2, 16), (3, 16), (4, 16)]);
    assert_eq!(bench.enter(0, 2), (0, 1));
    assert_eq!(bench.enter(0, 3), (0, 1));
    bench
}

/// A real-time thread 0 that entered these areas.
fn standing_in(areas: &[u64]) -> Bench {
    let bench = Bench::with_threads(&[REAL_TIME]);
    let mut bench = bench.and_scopes(&[(2, 16)]);
    for &area in areas {
        assert_eq!(bench.enter(0, area), (0, 1));
    }
    bench
}

/// The statuses of helpers of the three kinds, each tried on the same machine.
fn statuses(bench: &Bench) -> [u64; 3] {
    [ORDINARY, REAL_TIME, NO_HEAP].map(|kind| {
        let machine = bench.machine.clone();
        Bench { machine }.start_helper(0, kind, 1).0
    })
}

/// The counts of scopes 2, 3 and 4.
fn counts(bench: &Bench) -> [u64; 3] {
    [2, 3, 4].map(|scope| bench.machine.state.area(scope).count)
}

/// "The new thread receives the same entries, and the count of each scope rises by one."
#[test]
fn helper_receives_the_entries() {
    let mut bench = in_two_scopes();
    let before = bench.machine.clone();
    assert_eq!(bench.start_helper(0, NO_HEAP, 5), (0, 0));
    let mut expected = before.clone();
    expected.state.threads[5].kind = Some(Kind::NoHeap);
    expected.state.threads[5].stack = vec![2, 3];
    expected.state.areas[2].count = 2;
    expected.state.areas[3].count = 2;
    assert_eq!(bench.machine, expected);
}

/// The starter leaves both scopes with 1 left; the helper, which never entered them, empties them.
#[test]
fn helper_outlives_its_starter() {
    let mut bench = in_two_scopes();
    let object = bench.object(0, 0, 1);
    assert_eq!(bench.start_helper(0, REAL_TIME, 1), (0, 0));
    assert_eq!(bench.exit(0), (0, 1));
    assert_eq!(bench.exit(0), (0, 1));
    assert_eq!(bench.end(0), (0, 0));
    assert_eq!(bench.write(1, object, 0, 7), (0, 0));
    assert_eq!(bench.end(1), (11, 0));
    assert_eq!(bench.exit(1), (0, 0));
    assert_eq!(bench.read(1, object, 0), (13, 0));
    assert_eq!(bench.exit(1), (0, 0));
    assert_eq!(bench.exit(1), (11, 0));
    assert_eq!(bench.end(1), (0, 0));
    assert_eq!(counts(&bench), [0, 0, 0]);
}

/// The helper leaves first, and the starter's stack is its own.
#[test]
fn starter_outlives_its_helper() {
    let mut bench = in_two_scopes();
    bench.start_helper(0, REAL_TIME, 1);
    assert_eq!(bench.enter(1, 4), (0, 1));
    assert_eq!(bench.machine.state.thread(0).stack, [2, 3]);
    assert_eq!(bench.exit(1), (0, 0));
    assert_eq!(bench.exit(1), (0, 1));
    assert_eq!(bench.exit(1), (0, 1));
    assert_eq!(bench.end(1), (0, 0));
    // The same number again begins with what its starter has then.
    assert_eq!(bench.exit(0), (0, 0));
    assert_eq!(bench.start_helper(0, REAL_TIME, 1), (0, 0));
    assert_eq!(bench.machine.state.thread(1).stack, [2]);
    assert_eq!(counts(&bench), [2, 0, 0]);
}

/// Current area, parents and the assignment rule are as for a thread that entered.
#[test]
fn helper_stands_in_scopes_that_it_never_entered() {
    let mut bench = in_two_scopes();
    bench.start_helper(0, NO_HEAP, 1);
    bench.exit(0);
    let outer = bench.object(0, 1, 0);
    let inner = bench.object(1, 1, 0);
    assert_eq!(bench.store(1, inner, 0, outer), (0, 0));
    assert_eq!(bench.store(1, outer, 0, inner), (16, 0));
    assert_eq!(bench.enter(1, 3), (10, 0));
    assert_eq!(bench.enter(1, 4), (0, 1));
    assert_eq!(bench.machine.state.area(4).parent, Some(3));
    assert_eq!(bench.enter(0, 4), (10, 0));
    assert_eq!(bench.enter(0, 3), (0, 1));
    assert_eq!(bench.enter(0, 4), (0, 1));
    assert_eq!(counts(&bench), [2, 2, 2]);
}

/// Every thread in the same scopes, each started by the one before it.
#[test]
fn helpers_start_helpers() {
    let mut bench = in_two_scopes();
    for helper in 1..THREADS {
        assert_eq!(bench.start_helper(helper - 1, REAL_TIME, helper), (0, 0));
    }
    assert_eq!(counts(&bench), [THREADS, THREADS, 0]);
    for thread in 0..THREADS {
        let left = THREADS - 1 - thread;
        assert_eq!(bench.exit(thread), (0, left));
        assert_eq!(bench.exit(thread), (0, left));
    }
}

/// No 9: the copy of a full stack is full.
#[test]
fn helper_on_a_full_stack() {
    let mut bench = in_two_scopes();
    for _ in 0..30 {
        assert_eq!(bench.enter(0, 1), (0, 1));
    }
    assert_eq!(bench.start_helper(0, NO_HEAP, 15), (0, 0));
    let state = &bench.machine.state;
    assert_eq!(state.thread(15).stack, state.thread(0).stack);
    assert_eq!(bench.enter(15, 1), (9, 0));
    for _ in 0..30 {
        assert_eq!(bench.exit(15), (0, 0));
    }
    assert_eq!(bench.exit(15), (0, 1));
    assert_eq!(bench.exit(15), (0, 1));
}

/// "2 (starter as in the table, then new number, above 15 only)"
#[test]
fn number_2_starter_and_helper() {
    let mut bench = in_two_scopes();
    for starter in [1, 16, u64::MAX] {
        assert_eq!(bench.start_helper(starter, REAL_TIME, 2), (2, 0));
        // Before the helper's 3 and 4.
        assert_eq!(bench.start_helper(starter, 0, 0), (2, 0));
        assert_eq!(bench.start_helper(starter, 0, 2), (2, 0));
    }
    for helper in [16, 255, 0xffff, u64::MAX] {
        assert_eq!(bench.start_helper(0, REAL_TIME, helper), (2, 0));
        assert_eq!(bench.start_helper(0, 0, helper), (2, 0));
        assert_eq!(bench.start_helper(0, ORDINARY, helper), (2, 0));
    }
    assert_eq!(bench.start_helper(0, REAL_TIME, 15), (0, 0));
}

#[test]
fn number_3_started_helper() {
    let mut bench = in_two_scopes();
    bench.start(1, ORDINARY);
    for helper in [0, 1] {
        for kind in [ORDINARY, REAL_TIME, NO_HEAP, 0, 4] {
            assert_eq!(bench.start_helper(0, kind, helper), (3, 0));
        }
    }
    bench.end(1);
    assert_eq!(bench.start_helper(0, REAL_TIME, 1), (0, 0));
}

#[test]
fn number_4_kind_of_the_helper() {
    let mut bench = in_two_scopes();
    for kind in [0, 4, 1 << 32 | 2, u64::MAX] {
        assert_eq!(bench.start_helper(0, kind, 1), (4, 0));
    }
}

/// "5 if the kind lacks E for any entry": by the printed table, wherever the entry stands.
#[test]
fn number_5_any_entry() {
    let expected: [(&[u64], _); 8] = [
        (&[0], [0, 0, 5]),
        (&[1], [5, 0, 0]),
        (&[2], [5, 0, 0]),
        (&[0, 2], [5, 0, 5]),
        (&[2, 0], [5, 0, 5]),
        (&[1, 2], [5, 0, 0]),
        (&[2, 0, 1], [5, 0, 5]),
        (&[1, 0, 0], [5, 0, 5]),
    ];
    for (areas, expected) in expected {
        assert_eq!(statuses(&standing_in(areas)), expected, "{areas:?}");
    }
}

/// The lowest of 32 entries counts, and nothing else does.
#[test]
fn number_5_lowest_of_32_entries() {
    let mut areas = [1; 32];
    assert_eq!(statuses(&standing_in(&areas)), [5, 0, 0]);
    areas[0] = 0;
    assert_eq!(statuses(&standing_in(&areas)), [5, 0, 5]);
}

/// An empty stack has no entry to ask a right for: not even the heap's E, which no-heap lacks.
#[test]
fn no_right_is_asked_for_an_empty_stack() {
    assert_eq!(statuses(&standing_in(&[])), [0, 0, 0]);
    let mut bench = Bench::new();
    assert_eq!(bench.load_rights([b'0'; DIGITS]), (0, 0));
    bench.start(0, REAL_TIME);
    assert_eq!(statuses(&bench), [0, 0, 0]);
}

/// A no-heap helper under a heap entry, by the built-in table and by one that gives no-heap threads E
/// of the heap.
#[test]
fn table_in_force_decides() {
    assert_eq!(statuses(&standing_in(&[2, 0])), [5, 0, 5]);
    let mut own = *BUILT_IN;
    own[24] = b'1';
    let mut bench = Bench::new();
    assert_eq!(bench.load_rights(own), (0, 0));
    bench.start(0, REAL_TIME);
    bench.make(0, 2, 16);
    bench.enter(0, 2);
    bench.enter(0, 0);
    assert_eq!(statuses(&bench), [5, 0, 0]);
}

/// The rights are the helper's: its starter may lack them.
#[test]
fn kind_of_the_starter_is_not_asked() {
    let mut bench = Bench::with_threads(&[NO_HEAP]);
    assert_eq!(statuses(&bench), [0, 0, 0]);
    bench.enter(0, 1);
    assert_eq!(statuses(&bench), [5, 0, 0]);
}

#[test]
fn refusal_alters_nothing() {
    let mut bench = in_two_scopes();
    bench.enter(0, 0);
    let before = bench.machine.clone();
    let refused = [
        (1, REAL_TIME, 2, 2),
        (0, REAL_TIME, 16, 2),
        (0, REAL_TIME, 0, 3),
        (0, 0, 1, 4),
        (0, NO_HEAP, 1, 5),
        (0, ORDINARY, 1, 5),
    ];
    for (starter, kind, helper, status) in refused {
        assert_eq!(bench.start_helper(starter, kind, helper), (status, 0));
        assert_eq!(bench.machine, before);
    }
}
