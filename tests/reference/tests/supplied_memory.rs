//! "the lent words may hold anything": liveness over any contents, and which words calls write.

mod common;

use common::Bench;
use reference::layout::{Handle, Header};

fn handle(offset: u64, area: u64, generation: u64) -> u64 {
    Handle {
        offset,
        area,
        generation,
    }
    .pack()
}

/// "sets slots and data to 0, sets the map bit of the header and clears those of its other words"
#[test]
fn allocation_writes_its_own_words_alone() {
    let mut bench = Bench::all_ones();
    bench.enter(0, 1);
    assert_eq!(bench.object(0, 1, 2), handle(0, 1, 1));
    let mut permanent = vec![u64::MAX; 30];
    permanent[10..14].copy_from_slice(&[Header { slots: 1, data: 2 }.pack(), 0, 0, 0]);
    assert_eq!(bench.machine.supplied.permanent, permanent);
    assert_eq!(bench.machine.supplied.scratch, vec![u64::MAX; 70]);
    let cleared = (1 << 11) | (1 << 12) | (1 << 13);
    assert_eq!(
        bench.machine.supplied.start_map,
        [u64::MAX ^ cleared, u64::MAX]
    );
}

/// Scratch bits follow the permanent ones: scratch word 33 has bit 63, 34 bit 0 of the next word.
#[test]
fn scope_bits_count_behind_the_permanent_words() {
    let mut bench = Bench::all_ones();
    bench.make(0, 7, 32);
    bench.make(0, 2, 8);
    bench.enter(0, 2);
    assert_eq!(bench.object(0, 0, 1), handle(0, 2, 1));
    assert_eq!(bench.object(0, 1, 0), handle(2, 2, 1));
    let first = u64::MAX ^ 1 << 63;
    let second = u64::MAX ^ 1 << 1;
    assert_eq!(bench.machine.supplied.start_map, [first, second]);
    assert_eq!(bench.machine.supplied.scratch[32..36], [16_384, 0, 1, 0]);
}

/// "its stored words are not touched"
#[test]
fn exit_touches_no_word() {
    let mut bench = Bench::all_ones();
    bench.make(0, 2, 8);
    bench.enter(0, 2);
    let object = bench.object(0, 0, 1);
    bench.write(0, object, 0, 77);
    let before = bench.machine.supplied.clone();
    bench.exit(0);
    bench.enter(0, 2);
    assert_eq!(bench.machine.supplied, before);
    // The old words come back as zeros.
    let again = bench.object(0, 1, 0);
    assert_eq!(bench.load(0, again, 0), (0, 0));
}

/// A start bit of an earlier generation inside a new object makes no handle.
#[test]
fn stale_start_bits_are_cleared() {
    let mut bench = Bench::all_ones();
    bench.make(0, 2, 8);
    bench.enter(0, 2);
    bench.object(0, 0, 0);
    bench.object(0, 0, 0);
    bench.exit(0);
    bench.enter(0, 2);
    bench.object(0, 0, 3);
    assert_eq!(bench.read(0, handle(1, 2, 2), 0), (13, 0));
}

/// Each of the five conditions of liveness, broken alone.
#[test]
fn each_condition_of_liveness_counts() {
    let mut bench = Bench::all_ones();
    bench.make(0, 2, 8);
    bench.enter(0, 2);
    let object = bench.object(0, 1, 2);
    assert!(bench.machine.is_live(object));

    let mut closed = bench.machine.clone();
    closed.state.areas[2].count = 0;
    assert!(!closed.is_live(object));

    let mut reopened = bench.machine.clone();
    reopened.state.areas[2].generation = 2;
    assert!(!reopened.is_live(object));

    let mut emptied = bench.machine.clone();
    emptied.state.areas[2].used = 0;
    assert!(!emptied.is_live(object));

    let mut unmarked = bench.machine.clone();
    unmarked.supplied.start_map[0] &= !(1 << 30);
    assert!(!unmarked.is_live(object));

    let mut longer = bench.machine.clone();
    longer.supplied.scratch[0] += 1;
    assert!(!longer.is_live(object));
}

/// "Any live number serves as that handle, however the caller came by it."
#[test]
fn forged_by_the_host() {
    let mut bench = Bench::all_ones();
    bench.enter(0, 0);
    bench.object(0, 0, 5);
    // A header with stray high bits, and its start bit, inside the object.
    bench.machine.supplied.permanent[2] = Header { slots: 1, data: 2 }.pack() | 1 << 63;
    bench.machine.supplied.start_map[0] |= 1 << 2;
    let forged = handle(2, 0, 1);
    assert_eq!(bench.write(0, forged, 1, 99), (0, 0));
    assert_eq!(bench.machine.supplied.permanent[5], 99);
    // It ends with the used words; one word more is too many.
    bench.machine.supplied.permanent[2] = Header { slots: 1, data: 3 }.pack();
    assert_eq!(bench.write(0, forged, 1, 98), (13, 0));
}

/// Words above the used ones are never taken for objects.
#[test]
fn contents_alone_make_no_object() {
    let mut bench = Bench::all_ones();
    for area in 0..64 {
        for generation in 0..3 {
            for offset in 0..100 {
                let word = handle(offset, area, generation);
                assert!(!bench.machine.is_live(word), "{word:x}");
            }
        }
    }
    assert_eq!(bench.read(0, 1 << 20, 0), (13, 0));
}

/// "exactly its d words"
#[test]
fn view_is_the_data() {
    let mut bench = Bench::all_ones();
    bench.make(0, 2, 8);
    let heap = bench.object(0, 1, 2);
    bench.enter(0, 2);
    let scope = bench.object(0, 2, 3);
    let empty = bench.object(0, 1, 0);
    bench.write(0, heap, 1, 6);
    bench.write(0, scope, 0, 7);
    bench.write(0, scope, 2, 9);
    assert_eq!(bench.view(0, heap), [0, 6]);
    assert_eq!(bench.view(0, scope), [7, 0, 9]);
    assert_eq!(bench.view(0, empty), [0; 0]);
    assert_eq!(bench.view_answer(0, empty), (0, 0));
    assert_eq!(bench.view(0, 1), [0; 0]);
    assert_eq!(bench.view(1, heap), [0; 0]);
    let supplied = &bench.machine.supplied;
    assert!(std::ptr::eq(bench.view(0, scope), &supplied.scratch[3..6]));
    assert!(std::ptr::eq(bench.view(0, heap), &supplied.permanent[2..4]));
}

/// "A refusal ... alters no state and no lent word", the written map among them, tried on a full area.
#[test]
fn refused_calls_change_nothing() {
    let mut bench = Bench::all_ones();
    bench.make(0, 2, 8);
    bench.enter(0, 2);
    let object = bench.object(0, 1, 6);
    let kept = bench.machine.clone();
    assert_eq!(bench.allocate(0, 0, 0), (12, 0));
    assert_eq!(bench.store(0, object, 0, 1), (15, 0));
    assert_eq!(bench.store(0, object, 1, object), (14, 0));
    assert_eq!(bench.write(0, object, 6, 1), (14, 0));
    assert_eq!(bench.read(0, object, 0), (19, 0));
    assert_eq!(bench.enter(0, 2), (10, 0));
    assert_eq!(bench.make(0, 3, 49), (8, 0));
    assert_eq!(bench.remove(0, 2), (20, 0));
    assert_eq!(bench.remove(0, 3), (6, 0));
    assert_eq!(bench.end(0), (11, 0));
    assert_eq!(bench.start(0, 1), (3, 0));
    assert_eq!(bench.machine, kept);
}
