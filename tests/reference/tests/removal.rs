//! "Scopes that can be taken down": op 0c, and scratch in blocks of 16 words.

mod common;

use common::{Bench, Pair, ORDINARY, REAL_TIME};
use reference::calls::{Call, Op};
use reference::frame::{answers, lines, print};
use reference::layout::Handle;
use reference::machine::Machine;
use reference::rights::DIGITS;
use reference::state::LAST_GENERATION;

const START: Op = Op::Start { kind: REAL_TIME };

fn make(area: u64, size: u64) -> Op {
    Op::Make { area, size }
}

fn enter(area: u64) -> Op {
    Op::Enter { area }
}

fn allocate(slots: u64, data: u64) -> Op {
    Op::Allocate { slots, data }
}

fn remove(area: u64) -> Op {
    Op::Remove { area }
}

/// Runs calls by thread 0 or another as frames, each on its line, and compares their answers.
fn frames(rows: &[(u64, Op, Pair)]) {
    let calls = rows.iter().map(|&(thread, op, _)| Call { thread, op });
    let list: Vec<Vec<u8>> = calls.map(print).collect();
    let given = answers(&list.join(&b'\n'));
    let given = lines(&given);
    assert_eq!(given.len(), rows.len());
    for (line, (thread, op, (status, value))) in given.into_iter().zip(rows) {
        let expected = format!("{status:02x}{value:016x}");
        assert_eq!(line, expected.as_bytes(), "{op:?} by {thread}");
    }
}

/// Scratch of some words, behind a heap of 5 and immortal memory of 6; a real-time thread is started.
fn with_scratch(words: u64) -> Bench {
    let machine = Machine::zeroed(5, 6, words);
    let mut bench = Bench { machine };
    assert_eq!(bench.start(0, REAL_TIME), (0, 0));
    bench
}

/// Scratch of this many blocks, each one scope's: block 0 scope 2's, block 1 scope 3's and so on.
fn in_single_blocks(blocks: u64) -> Bench {
    let mut bench = with_scratch(16 * blocks);
    for area in 2..2 + blocks {
        assert_eq!(bench.make(0, area, 16), (0, 0));
        assert_eq!(block_of(&bench, area), area - 2);
    }
    bench
}

fn remove_all(bench: &mut Bench, scopes: &[u64]) {
    for &scope in scopes {
        assert_eq!(bench.remove(0, scope), (0, 0));
    }
}

/// The block that a scope starts with.
fn block_of(bench: &Bench, scope: u64) -> u64 {
    let state = &bench.machine.state;
    let start = state.area(scope).first - state.lengths.permanent;
    assert_eq!(start % 16, 0);
    start / 16
}

/// The numbers of the blocks that are used.
fn used(bench: &Bench) -> Vec<usize> {
    let blocks = bench.machine.state.used_blocks.iter().enumerate();
    blocks.filter_map(|(k, &used)| used.then_some(k)).collect()
}

/// "Sample 6 becomes 4,080 and 16", and the old 4,090 and 6 no longer fit.
#[test]
fn sample_6() {
    frames(&[
        (0, START, (0, 0)),
        (0, make(2, 4_080), (0, 0)),
        (0, make(3, 16), (0, 0)),
        (0, make(4, 1), (8, 0)),
        (0, remove(3), (0, 0)),
        (0, make(4, 1), (0, 0)),
        (0, remove(4), (0, 0)),
        (0, remove(2), (0, 0)),
        (0, make(2, 4_090), (0, 0)),
        (0, make(3, 6), (8, 0)),
    ]);
}

/// "Checks run 1, 2, 6 (outside 2 to 63, or not made). 20 when the scope is open, after 6."
#[test]
fn refusals_in_their_order() {
    frames(&[
        // 2 before 6, for threads above 15 and threads that are not started.
        (0, remove(9), (2, 0)),
        (16, remove(0), (2, 0)),
        (255, remove(0xffff), (2, 0)),
        (0, START, (0, 0)),
        (0, remove(0), (6, 0)),
        (0, remove(1), (6, 0)),
        (0, remove(2), (6, 0)),
        (0, remove(63), (6, 0)),
        (0, remove(64), (6, 0)),
        (0, remove(66), (6, 0)),
        (0, remove(0xffff), (6, 0)),
        (0, make(2, 8), (0, 0)),
        (0, make(63, 8), (0, 0)),
        (0, enter(2), (0, 1)),
        (0, remove(2), (20, 0)),
        // 2 before 20.
        (1, remove(2), (2, 0)),
        (0, remove(63), (0, 0)),
        (0, remove(63), (6, 0)),
        (0, Op::Exit, (0, 0)),
        (0, remove(2), (0, 0)),
        (0, remove(2), (6, 0)),
    ]);
}

/// 1 before all others, and nothing is removed.
#[test]
fn number_1_comes_first() {
    let mut bench = with_scratch(32);
    bench.make(0, 2, 16);
    bench.make(0, 3, 16);
    bench.enter(0, 3);
    let kept = bench.machine.state.clone();
    let mut supplied = bench.machine.supplied.clone();
    supplied.scratch.pop();
    for (thread, area) in [(0, 2), (0, 3), (0, 0), (0, 64), (9, 2), (16, 64)] {
        let op = remove(area);
        let answer = bench.machine.state.run(&mut supplied, Call { thread, op });
        assert_eq!((answer.status, answer.value), (1, 0));
    }
    assert_eq!(bench.machine.state, kept);
}

/// Numbers that no frame can carry.
#[test]
fn numbers_of_64_bits() {
    let mut bench = with_scratch(32);
    bench.make(0, 2, 16);
    for area in [1 << 16 | 2, 1 << 32 | 2, 1 << 63 | 2, u64::MAX] {
        assert_eq!(bench.remove(0, area), (6, 0));
        assert_eq!(bench.remove(1 << 32, area), (2, 0));
    }
}

/// "A removed scope counts as not made": 6 for entry and removal, no 7 for another making.
#[test]
fn removed_scope_counts_as_not_made() {
    frames(&[
        (0, START, (0, 0)),
        (0, make(5, 20), (0, 0)),
        (0, make(5, 20), (7, 0)),
        (0, remove(5), (0, 0)),
        (0, enter(5), (6, 0)),
        (0, remove(5), (6, 0)),
        (0, make(5, 0), (8, 0)),
        (0, enter(5), (6, 0)),
        (0, make(5, 30), (0, 0)),
        (0, make(5, 30), (7, 0)),
        (0, enter(5), (0, 1)),
        (0, Op::Exit, (0, 0)),
        // One that was entered, too.
        (0, remove(5), (0, 0)),
        (0, enter(5), (6, 0)),
        (0, remove(5), (6, 0)),
        (0, make(5, 20), (0, 0)),
        (0, make(5, 20), (7, 0)),
    ]);
}

/// The record of the scope and its used bits change, and nothing else: no other area, no lent word.
#[test]
fn removal_changes_the_scope_alone() {
    let mut bench = Bench::all_ones();
    bench.make(0, 2, 8);
    bench.make(0, 3, 17);
    bench.enter(0, 3);
    bench.object(0, 1, 1);
    bench.exit(0);
    bench.enter(0, 2);
    bench.object(0, 1, 1);
    let mut expected = bench.machine.clone();
    assert_eq!(bench.remove(0, 3), (0, 0));
    let area = &mut expected.state.areas[3];
    assert_eq!((area.generation, area.used, area.count), (1, 0, 0));
    (area.made, area.first, area.size) = (false, 0, 0);
    expected.state.used_blocks = vec![true, false, false, false];
    assert_eq!(bench.machine, expected);
}

/// No right is asked for: any started thread removes what any thread made.
#[test]
fn every_kind_removes() {
    let mut bench = Bench::new();
    assert_eq!(bench.load_rights([b'0'; DIGITS]), (0, 0));
    for kind in 1..=3 {
        assert_eq!(bench.start(kind, kind), (0, 0));
    }
    for kind in 1..=3 {
        assert_eq!(bench.make(1, 2, 16), (0, 0));
        assert_eq!(bench.remove(kind, 2), (0, 0));
    }
}

/// "20 when the scope is open": to those who stand in it and to others, until the last has left.
#[test]
fn number_20_until_the_last_leaves() {
    let bench = Bench::with_threads(&[REAL_TIME, ORDINARY, REAL_TIME]);
    let mut bench = bench.and_scopes(&[(2, 16), (3, 16)]);
    bench.enter(0, 2);
    bench.enter(0, 3);
    assert_eq!(bench.start_helper(0, REAL_TIME, 7), (0, 0));
    bench.exit(0);
    bench.exit(0);
    for thread in [0, 1, 2, 7] {
        assert_eq!(bench.remove(thread, 2), (20, 0));
        assert_eq!(bench.remove(thread, 3), (20, 0));
    }
    bench.exit(7);
    assert_eq!(bench.remove(1, 2), (20, 0));
    assert_eq!(bench.remove(1, 3), (0, 0));
    bench.exit(7);
    assert_eq!(bench.remove(1, 2), (0, 0));
}

/// A refused removal alters nothing.
#[test]
fn refusal_alters_nothing() {
    let mut bench = in_single_blocks(4);
    bench.enter(0, 3);
    let kept = bench.machine.clone();
    let refused = [(1, 3, 2), (16, 2, 2), (0, 0, 6), (0, 60, 6), (0, 3, 20)];
    for (thread, area, status) in refused {
        assert_eq!(bench.remove(thread, area), (status, 0));
        assert_eq!(bench.machine, kept);
    }
}

/// "The size stays as asked": refusal 12 compares with it and not with the room of whole blocks.
#[test]
fn size_stays_as_asked() {
    for (size, slots, data) in [(8, 3, 4), (1, 0, 0), (15, 7, 7), (17, 0, 16), (33, 32, 0)] {
        frames(&[
            (0, START, (0, 0)),
            (0, make(2, size), (0, 0)),
            (0, enter(2), (0, 1)),
            (0, allocate(slots, data + 1), (12, 0)),
            (0, allocate(slots, data), (0, 0x10_8000)),
            (0, allocate(0, 0), (12, 0)),
        ]);
    }
}

/// A scope of 16 k - 1 or 16 k words has k blocks, one of 16 k + 1 words k + 1.
#[test]
fn whole_blocks() {
    for k in 1..=5 {
        for (size, blocks) in [(16 * k - 1, k), (16 * k, k), (16 * k + 1, k + 1)] {
            let mut bench = with_scratch(160);
            assert_eq!(bench.make(0, 2, size), (0, 0));
            assert_eq!(used(&bench), (0..blocks as usize).collect::<Vec<_>>());
            assert_eq!(bench.make(0, 3, 1), (0, 0));
            assert_eq!(block_of(&bench, 3), blocks);
            remove_all(&mut bench, &[2]);
            assert_eq!(used(&bench), [blocks as usize]);
        }
    }
}

/// "a shorter rest of S is not used"
#[test]
fn rest_of_scratch_is_not_used() {
    for scratch in [32, 33, 40, 47] {
        let mut bench = with_scratch(scratch);
        assert_eq!(bench.make(0, 2, 33), (8, 0));
        assert_eq!(bench.make(0, 2, scratch + 1), (8, 0));
        assert_eq!(bench.make(0, 2, 32), (0, 0));
        assert_eq!(bench.make(0, 3, 1), (8, 0));
    }
    assert_eq!(with_scratch(48).make(0, 2, 33), (0, 0));
    for scratch in [0, 1, 15] {
        assert_eq!(with_scratch(scratch).make(0, 2, 1), (8, 0));
    }
    assert_eq!(with_scratch(16).make(0, 2, 16), (0, 0));
}

/// Sizes whose sum with 15 would wrap to few blocks or to none.
#[test]
fn sizes_near_2_64() {
    for scratch in [0, 16, 40, 16_384] {
        let mut bench = with_scratch(scratch);
        for size in u64::MAX - 40..=u64::MAX {
            assert_eq!(bench.make(0, 2, size), (8, 0));
        }
        assert_eq!(bench.make(0, 2, 1 << 63), (8, 0));
        assert_eq!(used(&bench), [0; 0]);
    }
    frames(&[
        (0, START, (0, 0)),
        (0, make(2, u64::MAX), (8, 0)),
        (0, make(2, u64::MAX - 14), (8, 0)),
        (0, make(2, u64::MAX - 15), (8, 0)),
        (0, make(2, 4_096), (0, 0)),
    ]);
}

/// "gets the lowest run of adjacent clear bits that holds it": a gap that is too short is passed over
/// and serves the next.
#[test]
fn lowest_run_after_fragmentation() {
    let mut bench = in_single_blocks(8);
    remove_all(&mut bench, &[3, 5, 6, 8, 9]);
    assert_eq!(used(&bench), [0, 2, 5]);
    assert_eq!(bench.make(0, 10, 17), (0, 0));
    assert_eq!(block_of(&bench, 10), 3);
    assert_eq!(bench.make(0, 11, 16), (0, 0));
    assert_eq!(block_of(&bench, 11), 1);
    assert_eq!(bench.make(0, 12, 1), (0, 0));
    assert_eq!(block_of(&bench, 12), 6);
    assert_eq!(bench.make(0, 13, 16), (0, 0));
    assert_eq!(block_of(&bench, 13), 7);
    assert_eq!(used(&bench), [0, 1, 2, 3, 4, 5, 6, 7]);
}

/// The first of two runs that are long enough, even where the other fits exactly.
#[test]
fn lowest_run_is_not_the_best_fit() {
    let mut bench = in_single_blocks(8);
    remove_all(&mut bench, &[3, 4, 5, 7, 8]);
    assert_eq!(bench.make(0, 10, 32), (0, 0));
    assert_eq!(block_of(&bench, 10), 1);
    assert_eq!(used(&bench), [0, 1, 2, 4, 7]);
}

#[test]
fn number_8_although_enough_blocks_are_free_in_all() {
    let mut bench = in_single_blocks(6);
    remove_all(&mut bench, &[3, 5, 7]);
    let kept = bench.machine.clone();
    for size in [17, 32, 48] {
        assert_eq!(bench.make(0, 9, size), (8, 0));
    }
    assert_eq!(bench.machine, kept);
    // The gaps join where the scope between them goes.
    remove_all(&mut bench, &[4]);
    assert_eq!(bench.make(0, 9, 49), (8, 0));
    assert_eq!(bench.make(0, 9, 48), (0, 0));
    assert_eq!(block_of(&bench, 9), 1);
}

/// The end of the vector ends a run like a used block.
#[test]
fn no_run_crosses_the_end() {
    let mut bench = in_single_blocks(4);
    remove_all(&mut bench, &[5]);
    assert_eq!(bench.make(0, 5, 17), (8, 0));
    remove_all(&mut bench, &[2]);
    assert_eq!(bench.make(0, 5, 17), (8, 0));
    assert_eq!(bench.make(0, 5, 16), (0, 0));
    assert_eq!(block_of(&bench, 5), 0);
}

/// "A closed scope keeps its room": the last exit frees nothing.
#[test]
fn last_exit_frees_nothing() {
    frames(&[
        (0, START, (0, 0)),
        (0, make(2, 4_096), (0, 0)),
        (0, enter(2), (0, 1)),
        (0, Op::Exit, (0, 0)),
        (0, make(3, 1), (8, 0)),
        (0, remove(2), (0, 0)),
        (0, make(3, 1), (0, 0)),
    ]);
}

/// "An area number made again continues its old turns", however often.
#[test]
fn generations_go_on() {
    let mut rows = vec![(0, START, (0, 0))];
    for generation in [1, 3, 5] {
        rows.extend([
            (0, make(2, 8 * generation), (0, 0)),
            (0, enter(2), (0, generation)),
            (0, Op::Exit, (0, 0)),
            (0, enter(2), (0, generation + 1)),
            (0, Op::Exit, (0, 0)),
            (0, remove(2), (0, 0)),
        ]);
    }
    frames(&rows);
}

/// 17 "still counts from the old" generation.
#[test]
fn number_17_after_a_removal() {
    let mut bench = Bench::with_threads(&[REAL_TIME]).and_scopes(&[(2, 8)]);
    bench.machine.state.areas[2].generation = LAST_GENERATION - 1;
    assert_eq!(bench.remove(0, 2), (0, 0));
    assert_eq!(bench.make(0, 2, 8), (0, 0));
    assert_eq!(bench.enter(0, 2), (0, LAST_GENERATION));
    bench.exit(0);
    assert_eq!(bench.remove(0, 2), (0, 0));
    // 6 before 17.
    assert_eq!(bench.enter(0, 2), (6, 0));
    assert_eq!(bench.make(0, 2, 8), (0, 0));
    assert_eq!(bench.enter(0, 2), (17, 0));
}

/// "so that old handles stay dead": as an object 13, as a target 15, with the scope at its old place
/// and elsewhere, not made, closed and open.
#[test]
fn old_handles_stay_dead() {
    for sizes in [[16, 16], [16, 40], [40, 16]] {
        let mut bench = with_scratch(128);
        let heap = bench.object(0, 1, 0);
        bench.make(0, 2, sizes[0]);
        bench.make(0, 3, 16);
        bench.enter(0, 2);
        let old = bench.object(0, 1, 1);
        assert_eq!(bench.write(0, old, 0, 7), (0, 0));
        bench.exit(0);
        remove_all(&mut bench, &[2]);
        stays_dead(&mut bench, heap, old);
        if sizes[1] > 16 {
            bench.make(0, 4, 16);
        }
        assert_eq!(bench.make(0, 2, sizes[1]), (0, 0));
        stays_dead(&mut bench, heap, old);
        assert_eq!(bench.enter(0, 2), (0, 2));
        stays_dead(&mut bench, heap, old);
        let again = bench.object(0, 1, 1);
        assert_eq!(again, old + (1 << 20));
        stays_dead(&mut bench, again, old);
        assert_eq!(bench.read(0, again, 0), (19, 0));
        assert_eq!(bench.load(0, again, 0), (0, 0));
    }
}

/// Every call that takes a handle refuses the old one.
fn stays_dead(bench: &mut Bench, live: u64, old: u64) {
    assert_eq!(bench.read(0, old, 0), (13, 0));
    assert_eq!(bench.write(0, old, 0, 1), (13, 0));
    assert_eq!(bench.load(0, old, 0), (13, 0));
    assert_eq!(bench.store(0, old, 0, live), (13, 0));
    assert_eq!(bench.view_answer(0, old), (13, 0));
    assert_eq!(bench.store(0, live, 0, old), (15, 0));
}

/// The new scope's words are the old one's, and nothing of what lay there is seen.
#[test]
fn room_used_by_another_scope() {
    let mut bench = with_scratch(40);
    bench.make(0, 2, 32);
    bench.enter(0, 2);
    for word in 0..16 {
        let object = bench.object(0, 0, 1);
        assert_eq!(bench.write(0, object, 0, word), (0, 0));
    }
    bench.exit(0);
    remove_all(&mut bench, &[2]);
    bench.make(0, 3, 32);
    assert_eq!(block_of(&bench, 3), 0);
    assert_eq!(bench.enter(0, 3), (0, 1));
    let object = bench.object(0, 1, 30);
    for index in 0..30 {
        assert_eq!(bench.read(0, object, index), (19, 0));
    }
    assert_eq!(bench.load(0, object, 0), (0, 0));
    for offset in 1..40 {
        let (area, generation) = (3, 1);
        let inside = Handle {
            offset,
            area,
            generation,
        };
        assert_eq!(bench.read(0, inside.pack(), 0), (13, 0));
    }
}

/// Objects on both sides of a removed scope are as before, also when its room is filled.
#[test]
fn neighbours_keep_their_objects() {
    let mut bench = in_single_blocks(3);
    let mut filled = |scope: u64| {
        assert_eq!(bench.enter(0, scope).0, 0);
        let object = bench.object(0, 0, 15);
        for index in 0..15 {
            assert_eq!(bench.write(0, object, index, 100 * scope + index), (0, 0));
        }
        object
    };
    let (below, above) = (filled(2), filled(4));
    remove_all(&mut bench, &[3]);
    bench.make(0, 5, 16);
    assert_eq!(block_of(&bench, 5), 1);
    bench.enter(0, 5);
    let between = bench.object(0, 15, 0);
    assert_eq!(bench.load(0, between, 14), (0, 0));
    for index in 0..15 {
        assert_eq!(bench.read(0, below, index), (0, 200 + index));
        assert_eq!(bench.read(0, above, index), (0, 400 + index));
    }
}

/// Every scope made and removed, again and again: no room is lost.
#[test]
fn no_room_is_lost() {
    let mut bench = with_scratch(16 * 62);
    for size in [1, 16, 7] {
        for scope in 2..64 {
            assert_eq!(bench.make(0, scope, size), (0, 0));
        }
        assert_eq!(used(&bench).len(), 62);
        for scope in 2..64 {
            assert_eq!(bench.remove(0, scope), (0, 0));
        }
        assert_eq!(used(&bench), [0; 0]);
    }
    assert_eq!(bench.make(0, 2, 16 * 62), (0, 0));
}
