//! The words of each call, each value and each refusal.

mod common;

use common::{generated, List};
use reference::answer::Answer;
use reference::calls::{Call, Op};
use reference::layout::Handle;
use tools::answers::pair;
use tools::{explain, text, words};

fn handle(area: u64, generation: u64, offset: u64) -> u64 {
    Handle {
        offset,
        area,
        generation,
    }
    .pack()
}

fn accepted(op: Op, value: u64) -> String {
    said(Call { thread: 7, op }, Answer::accepted(value))
}

fn said(call: Call, answer: Answer) -> String {
    let call_words = words::of_call(call);
    format!("{call_words} → {}", words::of_answer(Some(call), answer))
}

#[test]
fn every_op_and_its_value() {
    let (object, target) = (handle(2, 1, 0), handle(3, 17, 5));
    let (area, slot, index) = (2, 4, 3);
    let store = Op::Store {
        object,
        slot,
        target,
    };
    let write = Op::Write {
        object,
        index,
        word: 41,
    };
    let rows = [
        (
            Op::Start { kind: 2 },
            0,
            "t7 start 2 (real-time) → accepted",
        ),
        (Op::End, 0, "t7 end → accepted"),
        (Op::Make { area, size: 8 }, 0, "t7 make 2 size 8 → accepted"),
        (Op::Enter { area }, 9, "t7 enter 2 → generation 9"),
        (Op::Exit, 1, "t7 exit → count 1"),
        (
            Op::Allocate { slots: 1, data: 6 },
            object,
            "t7 allocate slots 1 data 6 → object 2.1:0",
        ),
        (store, 0, "t7 store 2.1:0 slot 4 := 3.17:5 → accepted"),
        (
            Op::Load { object, slot },
            target,
            "t7 load 2.1:0 slot 4 → reference 3.17:5",
        ),
        (write, 0, "t7 write 2.1:0 index 3 := 41 → accepted"),
        (
            Op::Read { object, index },
            99,
            "t7 read 2.1:0 index 3 → word 99",
        ),
        (
            Op::StartHelper { kind: 2, helper: 1 },
            0,
            "t7 start_helper 2 (real-time) as t1 → accepted",
        ),
        (Op::Remove { area }, 0, "t7 remove 2 → accepted"),
    ];
    for (op, value, expected) in rows {
        assert_eq!(accepted(op, value), expected);
    }
}

#[test]
fn kinds_and_areas_by_their_names() {
    let kinds = ["0", "1 (ordinary)", "2 (real-time)", "3 (no-heap)", "4"];
    for (kind, words) in (0..).zip(kinds) {
        let expected = format!("t7 start {words} → accepted");
        assert_eq!(accepted(Op::Start { kind }, 0), expected);
    }
    for (area, words) in (0..).zip(["0 (heap)", "1 (immortal)", "2"]) {
        let expected = format!("t7 enter {words} → generation 1");
        assert_eq!(accepted(Op::Enter { area }, 1), expected);
    }
}

#[test]
fn null_and_the_largest_handle() {
    let (object, slot) = (u64::MAX, 0);
    let load = accepted(Op::Load { object, slot }, 0);
    assert_eq!(
        load,
        "t7 load 63.17592186044415:16383 slot 0 → reference null"
    );
    let store = Op::Store {
        object: 0,
        slot,
        target: 0,
    };
    assert_eq!(
        accepted(store, 0),
        "t7 store null slot 0 := null → accepted"
    );
}

/// Where the table names no value, another than 0 is not kept from the reader.
#[test]
fn a_value_that_is_not_named() {
    assert_eq!(accepted(Op::End, 5), "t7 end → accepted, value 5");
    let answer = Answer {
        status: 11,
        value: 5,
    };
    let words = words::of_answer(None, answer);
    assert!(words.ends_with("entries, value 5"), "{words}");
}

#[test]
fn every_refusal() {
    let expected = [
        (1, "the buffers' lengths are not those of set-up"),
        (2, "thread above 15, or not started"),
        (3, "thread started and not ended"),
        (4, "kind not 1, 2 or 3"),
        (
            5,
            "the thread's kind (start_helper: the helper's) lacks the right",
        ),
        (
            6,
            "area above 63, or scope not made (make: outside 2 to 63; remove: that, or not made)",
        ),
        (7, "scope already made"),
        (8, "size 0, or no run of free blocks holds it"),
        (9, "stack has 32 entries"),
        (10, "scope open with another parent"),
        (11, "exit with an empty stack, or end with entries"),
        (12, "the object does not fit into the current area"),
        (13, "object null or not live"),
        (14, "slot or data index not below the object's"),
        (15, "target or loaded word neither null nor live"),
        (16, "the assignment rule forbids the reference"),
        (17, "scope not open, its generation the last one"),
        (18, "the line is no frame"),
        (19, "data word that nobody wrote since the object was made"),
        (20, "scope open"),
        (
            23,
            "not 36 digits, a digit other than 0 and 1, or A without U",
        ),
        (24, "a thread is started"),
    ];
    for status in 1..=0xff {
        let answer = Answer { status, value: 0 };
        let words = words::of_answer(
            Some(Call {
                thread: 0,
                op: Op::End,
            }),
            answer,
        );
        match expected.iter().find(|&&(number, _)| number == status) {
            Some((_, reason)) => assert_eq!(words, format!("refused {status}: {reason}")),
            None => assert_eq!(words, format!("refused {status}")),
        }
    }
}

/// A word that nobody wrote is told from a 0 that somebody wrote.
#[test]
fn unwritten_and_zero() {
    let calls = "t0 start 2\nt0 allocate 0 1\nt0 read 0.1:0 0\nt0 write 0.1:0 0 0\nt0 read 0.1:0 0";
    let words = List::new(text::assemble(calls.as_bytes()).expect("calls")).words();
    let answers: Vec<&str> = words
        .lines()
        .filter_map(|line| line.strip_prefix("t0 read 0.1:0 index 0 → "))
        .collect();
    let unwritten = "refused 19: data word that nobody wrote since the object was made";
    assert_eq!(answers, [unwritten, "word 0"]);
}

const START: &str = "0100000000000000000200000000000000000000";
const NO_FRAME: &str = "(no frame) → refused 18: the line is no frame\n";
const STARTED: &str = "t0 start 2 (real-time) → accepted\n";

/// Lines as the program takes them, whatever stands in them.
#[test]
fn lists_of_any_bytes() {
    let said = |list: &[u8]| List::new(list).words();
    assert_eq!(said(b""), "");
    assert_eq!(said(b"\n"), NO_FRAME);
    assert_eq!(said(START.as_bytes()), STARTED);
    assert_eq!(said(format!("{START}\r\n").as_bytes()), NO_FRAME);
    assert_eq!(
        said(format!("\n{START}\n\n").as_bytes()),
        [NO_FRAME, STARTED, NO_FRAME].concat()
    );
    assert_eq!(
        said(&[0xff, 0, b'\r', 0x1b, b'\n', 0xc3]),
        NO_FRAME.repeat(2)
    );
}

#[test]
fn columns_with_the_words() {
    let list = List::new(format!("{START}\n\x1b[2J\n"));
    let expected = format!(
        "{:<40} {:<18} words\n{START} 000000000000000000 {STARTED}{:<40} 120000000000000000 {NO_FRAME}",
        "frame", "answer", "\\x1b[2J"
    );
    assert_eq!(explain::in_columns(&list.exchanges()), expected);
}

#[test]
fn generated_lists_have_their_words() {
    for list in generated(1..100, 300) {
        let words = list.words();
        assert_eq!(words.lines().count(), list.lines());
        assert!(words.lines().all(|line| line.contains(" → ")));
    }
}

/// The words are those of the answers given, not of another run.
#[test]
fn given_answers_are_shown() {
    let answers = b"100000000000000000\n";
    let exchanges = pair(START.as_bytes(), answers).expect("an answer");
    let expected =
        "t0 start 2 (real-time) → refused 16: the assignment rule forbids the reference\n";
    assert_eq!(explain::in_words(&exchanges), expected);
}

#[test]
fn answers_that_do_not_belong_to_the_list() {
    let accepted = "000000000000000000\n";
    let reason = |answers: &str| pair(START.as_bytes(), answers.as_bytes()).expect_err("refused");
    assert_eq!(reason(""), "line 1 of the list has no answer");
    assert_eq!(
        reason(&accepted.repeat(2)),
        "line 2 of the answers answers no line of the list"
    );
    for wrong in [
        "",
        "00000000000000000",
        "0000000000000000000",
        "00000000000000000G",
        "00000000000000000A",
    ] {
        let expected = format!("line 1 of the answers is no answer: {wrong}");
        assert_eq!(reason(&format!("{wrong}\n")), expected);
    }
}
