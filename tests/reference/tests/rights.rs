//! Rights of the laboratory's own: loads, their refusals, and the generator of the digits.

mod common;

use common::{Bench, NO_HEAP, ORDINARY, REAL_TIME};
use reference::random::Random;
use reference::rights::{digits_of, Kind, Right, RightsTable, BUILT_IN, DIGITS};
use reference::texts;

/// Ordinary threads use immortal memory as they use the heap.
const OWN: &[u8; DIGITS] = b"111111110000111111111111000011111111";
const BUILT_IN_LINES: &[u8] = b"f30\nfff\n0ff\n";

fn printed(lines: impl AsRef<[u8]>) -> String {
    String::from_utf8(digits_of(lines.as_ref())).expect("digits are text")
}

#[test]
fn set_up_gives_the_built_in_table() {
    let rights = Bench::new().machine.state.rights;
    assert_eq!(rights, RightsTable::built_in());
    assert_eq!(rights.digits(), BUILT_IN);
}

#[test]
fn loaded_table_is_in_force_until_the_next() {
    let mut bench = Bench::with_threads(&[ORDINARY]);
    assert_eq!(bench.enter(0, 1), (5, 0));
    bench.end(0);
    assert_eq!(bench.load_rights(OWN), (0, 0));
    bench.start(0, ORDINARY);
    assert_eq!(bench.enter(0, 1), (0, 1));
    let object = bench.object(0, 1, 1);
    assert_eq!(bench.store(0, object, 0, object), (0, 0));
    bench.exit(0);
    bench.end(0);
    assert_eq!(bench.load_rights(BUILT_IN), (0, 0));
    bench.start(0, ORDINARY);
    assert_eq!(bench.enter(0, 1), (5, 0));
    // Use and reference are rights of the built-in table too.
    assert_eq!(bench.load(0, object, 0), (0, object));
}

/// A table of no rights, where every call that asks for one is refused.
#[test]
fn no_rights() {
    let mut bench = Bench::with_threads(&[REAL_TIME]);
    let object = bench.object(0, 1, 1);
    bench.end(0);
    assert_eq!(bench.load_rights([b'0'; DIGITS]), (0, 0));
    for kind in [ORDINARY, REAL_TIME, NO_HEAP] {
        bench.start(0, kind);
        assert_eq!(bench.make(0, 1 + kind, 4), (0, 0));
        for area in 0..=4 {
            let status = if area < 2 + kind { 5 } else { 6 };
            assert_eq!(bench.enter(0, area), (status, 0), "{kind} in {area}");
        }
        assert_eq!(bench.allocate(0, 0, 0), (5, 0));
        assert_eq!(bench.read(0, object, 0), (5, 0));
        assert_eq!(bench.view_answer(0, object), (5, 0));
        bench.end(0);
    }
}

/// "ordered kind, class, right": each digit by itself, A with its U.
#[test]
fn each_digit_has_its_place() {
    for place in 0..DIGITS {
        let mut text = [b'0'; DIGITS];
        text[place] = b'1';
        if place % 4 == 1 {
            text[place + 1] = b'1';
        }
        let table = RightsTable::from_text(&text).expect("a table");
        let mut digits = text.iter();
        for kind in [Kind::Ordinary, Kind::RealTime, Kind::NoHeap] {
            for class in [0..1, 1..2, 2..64] {
                for right in [Right::Enter, Right::Allocate, Right::Use, Right::Refer] {
                    let allowed = digits.next() == Some(&b'1');
                    for area in class.clone() {
                        assert_eq!(table.has_right(kind, area, right), allowed);
                    }
                }
            }
        }
    }
}

/// "Loading allows only 0 and 1", in 36 digits.
#[test]
fn number_23_digits() {
    let mut bench = Bench::new();
    let longer = |byte| [&BUILT_IN[..], &[byte]].concat();
    let mut texts = vec![vec![], longer(b'0'), longer(b'1'), longer(b'\n'), longer(0)];
    texts.extend((1..DIGITS).map(|length| BUILT_IN[..length].to_vec()));
    texts.push(BUILT_IN.repeat(2));
    texts.push(BUILT_IN.map(|digit| digit - b'0').to_vec());
    texts.push(BUILT_IN_LINES.to_vec());
    for place in 0..DIGITS {
        for wrong in [b'2', b'/', b'\n', b' ', 0, 1, 0xb0, 0xb1, 0xff] {
            let mut text = BUILT_IN.to_vec();
            text[place] = wrong;
            texts.push(text);
        }
    }
    let before = bench.machine.clone();
    for text in texts {
        assert_eq!(bench.load_rights(&text), (23, 0), "{text:?}");
    }
    assert_eq!(bench.machine, before);
}

/// "and A only with U", in each of the nine groups.
#[test]
fn number_23_a_without_u() {
    let mut bench = Bench::new();
    for group in 0..9 {
        for rights in 0..16 {
            let mut text = *BUILT_IN;
            text[group * 4..][..4].copy_from_slice(format!("{rights:04b}").as_bytes());
            let refused = [0b0100, 0b0101, 0b1100, 0b1101].contains(&rights);
            let status = if refused { 23 } else { 0 };
            assert_eq!(bench.load_rights(text), (status, 0), "{rights:04b}");
        }
    }
}

#[test]
fn number_24_any_thread() {
    for thread in 0..16 {
        let mut bench = Bench::new();
        bench.start(thread, NO_HEAP);
        let before = bench.machine.clone();
        assert_eq!(bench.load_rights(OWN), (24, 0));
        // 23 is first.
        assert_eq!(bench.load_rights("2"), (23, 0));
        assert_eq!(bench.machine, before);
        bench.end(thread);
        assert_eq!(bench.load_rights(OWN), (0, 0));
    }
}

/// A load is lent no buffer, needs no thread, and asks nothing of the objects.
#[test]
fn objects_live_on() {
    let mut bench = Bench::with_threads(&[REAL_TIME]);
    let heap = bench.object(0, 1, 1);
    bench.write(0, heap, 0, 77);
    bench.end(0);
    let before = bench.machine.clone();
    let mut closed = *BUILT_IN;
    closed[12..16].copy_from_slice(b"0000");
    assert_eq!(bench.load_rights(closed), (0, 0));
    assert_eq!(bench.machine.supplied, before.supplied);
    assert!(bench.machine.is_live(heap));
    bench.start(0, REAL_TIME);
    assert_eq!(bench.read(0, heap, 0), (5, 0));
    bench.end(0);
    assert_eq!(bench.load_rights(BUILT_IN), (0, 0));
    assert_eq!(bench.machine, before);
    bench.start(0, REAL_TIME);
    assert_eq!(bench.read(0, heap, 0), (0, 77));
}

#[test]
fn texts_are_what_they_are_called() {
    let mut random = Random::new(1);
    for _ in 0..2_000 {
        let table = texts::table(&mut random);
        assert!(RightsTable::from_text(table.bytes()).is_some(), "{table:?}");
        let spoilt = texts::spoilt(&mut random);
        assert!(
            RightsTable::from_text(spoilt.bytes()).is_none(),
            "{spoilt:?}"
        );
    }
}

/// "For f30, fff and 0ff it must give the built-in table."
#[test]
fn generator_gives_the_built_in_table() {
    let without = &BUILT_IN_LINES[..11];
    for lines in [BUILT_IN_LINES, without] {
        assert_eq!(printed(lines), "111100110000111111111111000011111111");
    }
}

/// "E as bit 3 down to R as bit 0"; what the load refuses is printed too.
#[test]
fn generator_prints_each_digit() {
    assert_eq!(
        printed("012\n345\n678"),
        "000000010010001101000101011001111000"
    );
    assert_eq!(
        printed("9ab\ncde\nf00"),
        "100110101011110011011110111100000000"
    );
    assert_eq!(printed("ff0\nfff\n0ff").as_bytes(), OWN);
}

/// "and nothing for other input"
#[test]
fn generator_prints_nothing_else() {
    for length in 0..11 {
        assert_eq!(printed(&BUILT_IN_LINES[..length]), "", "{length} bytes");
    }
    for byte in 0..=255 {
        let longer = [BUILT_IN_LINES, &[byte]].concat();
        assert_eq!(printed(&longer), "");
        for place in 0..12 {
            let mut lines = BUILT_IN_LINES.to_vec();
            lines[place] = byte;
            let line_feed = [3, 7, 11].contains(&place);
            let right = if line_feed {
                byte == b'\n'
            } else {
                b"0123456789abcdef".contains(&byte)
            };
            assert_eq!(printed(&lines).len(), if right { 36 } else { 0 });
        }
    }
    for other in [
        "",
        "\n",
        "f30",
        "f30\nfff",
        "f30\nfff\n",
        "f30\nfff\n0ff\n\n",
        "f30\nfff\n0ff\n0",
        "F30\nfff\n0ff",
        "f30\r\nfff\r\n0ff\r\n",
        "f30 \nfff\n0ff",
        " f30\nfff\n0f",
        "f3\n0fff\n0ff",
        "\nf30\nfff\n0ff",
        "f30fff0ff",
        "f30,fff,0ff",
        "f30\nfff\n\n0ff",
    ] {
        assert_eq!(printed(other), "", "{other:?}");
    }
}
