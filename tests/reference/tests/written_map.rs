//! "An unmeasured ring is not width zero": which bits of the written map calls read and write.

mod common;

use common::{filled, Bench, NO_HEAP, ORDINARY, REAL_TIME};
use reference::calls::{Call, Op};

/// Scope 2 of 8 words, entered; its words are 30 to 37, and every lent bit is 1.
fn in_scope() -> Bench {
    let mut bench = Bench::all_ones();
    bench.make(0, 2, 8);
    assert_eq!(bench.enter(0, 2), (0, 1));
    bench
}

/// The written map's bits of scope 2, its first word's lowest.
fn bits(bench: &Bench) -> u64 {
    bench.machine.supplied.written[0] >> 30 & 0xff
}

/// Statuses and values of reads of the first words of an object.
fn reads<const N: usize>(bench: &mut Bench, object: u64) -> [(u64, u64); N] {
    std::array::from_fn(|index| bench.read(0, object, index as u64))
}

/// "for the object's words": header, slots and data alike, and no other.
#[test]
fn allocation_clears_the_bits_of_its_words() {
    let mut bench = in_scope();
    bench.object(0, 2, 1);
    assert_eq!(bits(&bench), 0b1111_0000);
    bench.object(0, 0, 0);
    assert_eq!(bits(&bench), 0b1110_0000);
    let others = u64::MAX ^ 0b1_1111 << 30;
    assert_eq!(bench.machine.supplied.written, [others, u64::MAX]);
}

/// Words 62 to 66: the object's bits lie in two words of the map.
#[test]
fn allocation_clears_bits_of_two_map_words() {
    let mut bench = Bench::all_ones();
    bench.make(0, 7, 32);
    bench.make(0, 2, 8);
    bench.enter(0, 2);
    let object = bench.object(0, 1, 3);
    let (first, second) = (u64::MAX >> 2, u64::MAX << 3);
    assert_eq!(bench.machine.supplied.written, [first, second]);
    assert_eq!(reads(&mut bench, object), [(19, 0); 3]);
    assert_eq!(bench.write(0, object, 1, 6), (0, 0));
    assert_eq!(bench.machine.supplied.written, [first, second | 1 << 1]);
    assert_eq!(reads(&mut bench, object), [(19, 0), (0, 6), (19, 0)]);
}

/// Bit 1 + s + q of the object's, and no bit of the start map.
#[test]
fn write_sets_the_bit_of_its_word() {
    let mut bench = in_scope();
    let object = bench.object(0, 2, 3);
    let start_map = bench.machine.supplied.start_map.clone();
    assert_eq!(bits(&bench), 0b1100_0000);
    assert_eq!(bench.write(0, object, 1, 5), (0, 0));
    assert_eq!(bits(&bench), 0b1101_0000);
    assert_eq!(bench.write(0, object, 0, 5), (0, 0));
    assert_eq!(bits(&bench), 0b1101_1000);
    assert_eq!(bench.write(0, object, 1, 6), (0, 0));
    assert_eq!(bits(&bench), 0b1101_1000);
    assert_eq!(bench.machine.supplied.start_map, start_map);
    assert_eq!(reads(&mut bench, object), [(0, 5), (0, 6), (19, 0)]);
}

/// In the heap and in immortal memory as in a scope.
#[test]
fn each_area_has_its_bits() {
    let mut bench = Bench::all_ones();
    for (area, bit) in [(0, 2), (1, 12)] {
        bench.enter(0, area);
        let object = bench.object(0, 1, 1);
        assert_eq!(bench.read(0, object, 0), (19, 0));
        let before = bench.machine.supplied.written[0];
        assert_eq!(bench.write(0, object, 0, 8), (0, 0));
        assert_eq!(bench.machine.supplied.written[0], before | 1 << bit);
        assert_eq!(bench.read(0, object, 0), (0, 8));
    }
}

#[test]
fn writing_0_is_a_writing() {
    let mut bench = in_scope();
    let object = bench.object(0, 0, 2);
    assert_eq!(bench.write(0, object, 1, 0), (0, 0));
    assert_eq!(reads(&mut bench, object), [(19, 0), (0, 0)]);
}

/// The object of an emptied scope left its words and its bits; a new one over them has none of either.
#[test]
fn words_used_again_are_unwritten() {
    let mut bench = in_scope();
    let object = bench.object(0, 0, 3);
    for index in 0..3 {
        assert_eq!(bench.write(0, object, index, 40 + index), (0, 0));
    }
    bench.exit(0);
    bench.enter(0, 2);
    assert_eq!(bits(&bench), 0b1111_1110);
    let again = bench.object(0, 1, 1);
    assert_eq!(bits(&bench), 0b1111_1000);
    assert_eq!(bench.read(0, again, 0), (19, 0));
    let next = bench.object(0, 0, 2);
    assert_eq!(reads(&mut bench, next), [(19, 0); 2]);
    assert_eq!(bench.write(0, again, 0, 50), (0, 0));
    assert_eq!(bench.read(0, again, 0), (0, 50));
    assert_eq!(reads(&mut bench, next), [(19, 0); 2]);
}

/// A refused write sets no bit: by 1, 2, 13, 5, 14.
#[test]
fn refused_writes_set_no_bit() {
    let mut bench = in_scope();
    bench.start(1, ORDINARY);
    let object = bench.object(0, 1, 1);
    let kept = bench.machine.clone();
    assert_eq!(bench.write(2, object, 0, 7), (2, 0));
    assert_eq!(bench.write(0, object + 1, 0, 7), (13, 0));
    assert_eq!(bench.write(1, object, 0, 7), (5, 0));
    assert_eq!(bench.write(0, object, 1, 7), (14, 0));
    let (thread, index, word) = (0, 0, 7);
    let op = Op::Write {
        object,
        index,
        word,
    };
    let mut longer = kept.supplied.clone();
    longer.written.push(0);
    let answer = bench.machine.state.run(&mut longer, Call { thread, op });
    assert_eq!(answer.status, 1);
    longer.written.pop();
    assert_eq!(longer, kept.supplied);
    assert_eq!(bench.machine, kept);
    assert_eq!(bench.read(0, object, 0), (19, 0));
}

/// Neither set-up nor any call but 06 and 09 touches the map.
#[test]
fn other_calls_leave_the_map() {
    let mut bench = in_scope();
    let object = bench.object(0, 1, 2);
    bench.write(0, object, 0, 7);
    let written = bench.machine.supplied.written.clone();
    assert_eq!(bench.start(1, NO_HEAP), (0, 0));
    assert_eq!(bench.make(1, 3, 4), (0, 0));
    assert_eq!(bench.enter(1, 3), (0, 1));
    assert_eq!(bench.store(0, object, 0, object), (0, 0));
    assert_eq!(bench.load(0, object, 0), (0, object));
    assert_eq!(reads(&mut bench, object), [(0, 7), (19, 0)]);
    assert_eq!(bench.view_answer(0, object), (0, 0));
    assert_eq!(bench.exit(1), (0, 0));
    assert_eq!(bench.end(1), (0, 0));
    assert_eq!(bench.exit(0), (0, 0));
    assert_eq!(bench.enter(0, 2), (0, 2));
    assert_eq!(bench.remove(0, 3), (0, 0));
    assert_eq!(bench.machine.supplied.written, written);
}

/// "The shown part of a store still shows raw words": never 19.
#[test]
fn view_shows_words_that_nobody_wrote() {
    let mut bench = in_scope();
    let object = bench.object(0, 1, 3);
    assert_eq!(bench.view(0, object), [0, 0, 0]);
    assert_eq!(bench.view_answer(0, object), (0, 0));
    bench.write(0, object, 1, 7);
    assert_eq!(bench.view(0, object), [0, 7, 0]);
    // A word that the host wrote itself.
    bench.machine.supplied.scratch[4] = 8;
    assert_eq!(bench.view(0, object), [0, 7, 8]);
    assert_eq!(bench.read(0, object, 2), (19, 0));
}

/// "a word whose bit there is 0": the bit decides, whoever set it, and not the word.
#[test]
fn the_bit_decides() {
    let mut bench = in_scope();
    let object = bench.object(0, 1, 2);
    bench.write(0, object, 0, 7);
    bench.machine.supplied.written[0] ^= 0b11 << 32;
    assert_eq!(reads(&mut bench, object), [(19, 0), (0, 0)]);
    bench.machine.supplied.written[0] = !(1 << 32);
    assert_eq!(reads(&mut bench, object), [(19, 0), (0, 0)]);
    bench.machine.supplied.written[0] = 1 << 32;
    assert_eq!(reads(&mut bench, object), [(0, 7), (19, 0)]);
}

/// What the map held before is never seen.
#[test]
fn any_map_answers_alike() {
    for word in [0, u64::MAX, 0x5555_5555_5555_5555] {
        let mut bench = Bench::with_threads(&[REAL_TIME]).and_scopes(&[(2, 8)]);
        let lengths = bench.machine.supplied.lengths();
        bench.machine.supplied = filled(lengths, word);
        bench.enter(0, 2);
        let object = bench.object(0, 1, 3);
        bench.write(0, object, 2, 9);
        assert_eq!(reads(&mut bench, object), [(19, 0), (19, 0), (0, 9)]);
    }
}
