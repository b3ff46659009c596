//! "Memory that the host lends": what set-up takes and what a refused one gives.

mod common;

use common::Bench;
use reference::machine::Machine;
use reference::memory::{Lengths, Memory};
use reference::state::{set_up, State};

/// Lent words of these lengths, none of them 0; the written map is as long as the start map.
fn supplied(permanent: u64, scratch: u64, map: u64) -> Memory {
    with_maps(permanent, scratch, map, map)
}

fn with_maps(permanent: u64, scratch: u64, start_map: u64, written: u64) -> Memory {
    let lengths = Lengths {
        permanent,
        scratch,
        start_map,
        written,
    };
    common::filled(lengths, u64::MAX)
}

fn status(heap: u64, immortal: u64, supplied: &Memory) -> u64 {
    set_up(heap, immortal, supplied).0.status
}

#[test]
fn accepted_lengths() {
    assert_eq!(status(0, 0, &supplied(0, 0, 0)), 0);
    assert_eq!(status(1, 0, &supplied(1, 0, 1)), 0);
    assert_eq!(status(1_024, 1_024, &supplied(2_048, 4_096, 96)), 0);
    assert_eq!(status(16_000, 384, &supplied(16_384, 16_384, 512)), 0);
    assert_eq!(status(30, 30, &supplied(60, 4, 1)), 0);
    assert_eq!(status(30, 30, &supplied(60, 5, 2)), 0);
}

#[test]
fn sum_is_not_the_permanent_length() {
    assert_eq!(status(1, 1, &supplied(1, 0, 1)), 1);
    assert_eq!(status(1, 1, &supplied(3, 0, 1)), 1);
    // 2^64 - 1 + 3 would wrap to 2.
    assert_eq!(status(u64::MAX, 3, &supplied(2, 0, 1)), 1);
}

#[test]
fn too_many_words() {
    assert_eq!(status(16_384, 1, &supplied(16_385, 0, 257)), 1);
    assert_eq!(status(0, 0, &supplied(0, 16_385, 257)), 1);
    assert_eq!(status(0, 0, &supplied(0, 16_384, 256)), 0);
}

#[test]
fn maps_of_another_length() {
    assert_eq!(status(30, 30, &supplied(60, 4, 0)), 1);
    assert_eq!(status(30, 30, &supplied(60, 4, 2)), 1);
    assert_eq!(status(30, 30, &supplied(60, 5, 1)), 1);
    assert_eq!(status(0, 0, &supplied(0, 0, 1)), 1);
}

/// The start map alone, then the written map alone: it is "covered by refusal 1".
#[test]
fn one_map_of_another_length() {
    for (scratch, fitting) in [(4, 1), (5, 2), (4_096, 65)] {
        for wrong in [0, fitting - 1, fitting + 1, 2 * fitting] {
            let start_map = with_maps(60, scratch, wrong, fitting);
            assert_eq!(status(30, 30, &start_map), 1, "{wrong} words");
            let written = with_maps(60, scratch, fitting, wrong);
            assert_eq!(status(30, 30, &written), 1, "{wrong} words");
        }
        let both = with_maps(60, scratch, fitting, fitting);
        assert_eq!(status(30, 30, &both), 0);
    }
    assert_eq!(status(0, 0, &with_maps(0, 0, 0, 1)), 1);
}

/// "the lent words may hold anything": an accepted set-up and a refused one ask for lengths alone.
#[test]
fn set_up_reads_no_word() {
    for written in [2, 3] {
        let ones = with_maps(60, 5, 2, written);
        let zeros = common::filled(ones.lengths(), 0);
        assert_eq!(set_up(30, 30, &ones), set_up(30, 30, &zeros));
    }
}

/// "A refused set-up gives the state of an accepted one with all lengths 0."
#[test]
fn refused_set_up_gives_the_empty_state() {
    let (refused, state) = set_up(1, 1, &supplied(1, 0, 1));
    let (accepted, empty) = set_up(0, 0, &supplied(0, 0, 0));
    assert_eq!((refused.status, refused.value), (1, 0));
    assert_eq!((accepted.status, accepted.value), (0, 0));
    assert_eq!(state, empty);
}

#[test]
fn the_empty_state_serves() {
    let state: State = set_up(1, 1, &supplied(1, 0, 1)).1;
    let supplied = supplied(0, 0, 0);
    let mut bench = Bench {
        machine: Machine { state, supplied },
    };
    assert_eq!(bench.start(0, 2), (0, 0));
    assert_eq!(bench.enter(0, 0), (0, 1));
    assert_eq!(bench.enter(0, 1), (0, 1));
    assert_eq!(bench.allocate(0, 0, 0), (12, 0));
    assert_eq!(bench.make(0, 2, 1), (8, 0));
    assert_eq!(bench.read(0, 1 << 20, 0), (13, 0));
    // A written map of the length that was refused, then a permanent store.
    bench.machine.supplied.written.push(0);
    assert_eq!(bench.exit(0), (1, 0));
    bench.machine.supplied.written.pop();
    bench.machine.supplied.permanent.push(0);
    assert_eq!(bench.exit(0), (1, 0));
}
