//! The twelve samples of document 01, by their numbers; sample 6 as scopes that can be taken down have
//! it.

mod common;

use common::{Bench, NO_HEAP, REAL_TIME};
use reference::layout::{Handle, Header};

#[test]
fn sample_1_handle() {
    let handle = Handle {
        offset: 3,
        area: 5,
        generation: 2,
    };
    assert_eq!(handle.pack(), 2_179_075);
    assert_eq!(Handle::unpack(2_179_075), handle);
}

#[test]
fn sample_2_header() {
    let header = Header { slots: 1, data: 1 };
    assert_eq!(header.pack(), 16_385);
    assert_eq!(Header::unpack(16_385), header);
}

#[test]
fn samples_3_to_5_room_of_a_scope() {
    let mut bench = Bench::with_threads(&[REAL_TIME]).and_scopes(&[(2, 8)]);
    assert_eq!(bench.enter(0, 2), (0, 1));
    assert_eq!(bench.allocate(0, 3, 4).0, 0);
    assert_eq!(bench.allocate(0, 0, 0), (12, 0));
    assert_eq!(bench.exit(0), (0, 0));
    assert_eq!(bench.enter(0, 2), (0, 2));
    assert_eq!(bench.allocate(0, 3, 4).0, 0);
}

#[test]
fn sample_6_scratch_words() {
    let mut bench = Bench::with_threads(&[REAL_TIME]);
    assert_eq!(bench.make(0, 2, 4_080), (0, 0));
    assert_eq!(bench.make(0, 3, 16), (0, 0));
    assert_eq!(bench.make(0, 4, 1), (8, 0));
}

/// Thread 0 stands in 2 and 3, thread 1 nowhere.
fn two_threads() -> Bench {
    let bench = Bench::with_threads(&[REAL_TIME, REAL_TIME]);
    let mut bench = bench.and_scopes(&[(2, 16), (3, 16)]);
    assert_eq!(bench.enter(0, 2), (0, 1));
    assert_eq!(bench.enter(0, 3), (0, 1));
    bench
}

#[test]
fn sample_7_another_parent() {
    let mut bench = two_threads();
    assert_eq!(bench.enter(1, 3), (10, 0));
}

#[test]
fn sample_8_the_same_parent_under_a_heap_entry() {
    let mut bench = two_threads();
    assert_eq!(bench.enter(1, 2), (0, 1));
    assert_eq!(bench.enter(1, 0), (0, 1));
    assert_eq!(bench.enter(1, 3), (0, 1));
    assert_eq!(bench.machine.state.area(3).count, 2);
}

#[test]
fn samples_9_and_10_assignment() {
    let bench = Bench::with_threads(&[REAL_TIME]);
    let mut bench = bench.and_scopes(&[(2, 16), (3, 16)]);
    bench.enter(0, 2);
    let outer = bench.object(0, 1, 0);
    bench.enter(0, 3);
    let inner = bench.object(0, 1, 0);
    assert_eq!(bench.store(0, inner, 0, outer), (0, 0));
    assert_eq!(bench.store(0, outer, 0, inner), (16, 0));
    assert_eq!(bench.load(0, inner, 0), (0, outer));
    assert_eq!(bench.load(0, outer, 0), (0, 0));
}

#[test]
fn sample_11_entries() {
    let mut bench = Bench::with_threads(&[REAL_TIME]);
    for _ in 0..32 {
        assert_eq!(bench.enter(0, 0), (0, 1));
    }
    assert_eq!(bench.enter(0, 0), (9, 0));
}

#[test]
fn sample_12_no_heap() {
    let mut bench = Bench::with_threads(&[NO_HEAP]);
    assert_eq!(bench.allocate(0, 0, 0), (5, 0));
}
