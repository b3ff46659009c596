//! Calls as text: what is read, what is told where it cannot be, and the way back.

mod common;

use common::{example, generated, EXAMPLES};
use reference::frame;
use tools::text::{self, assemble};

/// The frames of a text that must be read.
fn frames(source: &str) -> String {
    let frames = assemble(source.as_bytes());
    String::from_utf8(frames.expect("calls")).expect("digits")
}

/// What is told of a line that must not be read, and that it is the line's number.
fn told(line: &str) -> String {
    let source = format!("# a comment\n\nt0 exit\n{line}\nt0 exit\n");
    let unread = assemble(source.as_bytes()).expect_err("no call");
    let [unread] = &unread[..] else {
        panic!("{line}: {unread:?}")
    };
    let told = unread.to_string();
    let reason = told.strip_prefix("line 4: ");
    reason.unwrap_or_else(|| panic!("{told}")).to_string()
}

#[test]
fn every_call() {
    let rows = [
        ("t0 start 2", "0100000000000000000200000000000000000000"),
        ("t1 end", "0201000000000000000000000000000000000000"),
        ("t0 make 2 8", "0300000000000000000000020000000000000008"),
        ("t15 enter 2", "040f000000000000000000020000000000000000"),
        ("t0 exit", "0500000000000000000000000000000000000000"),
        (
            "t0 allocate 1 9",
            "0600000000000000000000010000000000000009",
        ),
        (
            "t0 store 2.1:0 3 3.2:1",
            "070000000000001080000003000000000020c001",
        ),
        (
            "t0 load 2.1:0 3",
            "0800000000000010800000030000000000000000",
        ),
        (
            "t0 write 2.1:0 3 41",
            "0900000000000010800000030000000000000029",
        ),
        (
            "t0 read 2.1:0 3",
            "0a00000000000010800000030000000000000000",
        ),
        (
            "t1 start_helper 2 t15",
            "0b010000000000000002000f0000000000000000",
        ),
        ("t1 remove 63", "0c010000000000000000003f0000000000000000"),
    ];
    for (line, frame) in rows {
        assert_eq!(frames(line), format!("{frame}\n"));
    }
}

#[test]
fn comments_and_empty_lines_are_skipped() {
    assert_eq!(frames(""), "");
    assert_eq!(frames("\n \t\n# t0 exit\n  # none\n"), "");
    let exit = frames("t0 exit");
    for line in ["t0 exit # leaves", "t0 exit#leaves", "\tt0   exit \r"] {
        assert_eq!(frames(line), exit, "{line}");
    }
}

#[test]
fn numbers_and_handles() {
    assert_eq!(frames("t0x0f enter 0x2a"), frames("t15 enter 42"));
    assert_eq!(
        frames("t0 write null 0 0xFFffFFffFFffFFff"),
        frames("t0 write 0 0 18446744073709551615")
    );
    assert_eq!(frames("t0 read 2.1:0 0"), frames("t0 read 0x108000 0"));
    assert_eq!(frames("t0 read 0x2.0x1:0x0 0"), frames("t0 read 1081344 0"));
    assert_eq!(frames("t0 store null 0 null"), frames("t0 store 0 0 0.0:0"));
    for thread in ["15", "0xf", "t0xf"] {
        let line = format!("t0 start_helper 2 {thread}");
        assert_eq!(frames(&line), frames("t0 start_helper 2 t15"), "{line}");
    }
}

/// What a frame carries is assembled, whether the core takes it or not.
#[test]
fn greatest_numbers_fit() {
    let largest = "63.17592186044415:16383";
    let frame = frames(&format!("t255 store {largest} 65535 {largest}"));
    assert_eq!(frame, format!("07{}\n", "f".repeat(38)));
    assert_eq!(
        frames("t200 enter 99"),
        "04c8000000000000000000630000000000000000\n"
    );
    assert_eq!(
        frames("t0 start_helper 99 t65535"),
        "0b000000000000000063ffff0000000000000000\n"
    );
}

#[test]
fn lines_that_are_no_call() {
    let calls =
        "start, end, make, enter, exit, allocate, store, load, write, read, start_helper, remove";
    let rows = [
        ("0 exit", "`0` is no thread: t0, t1 and so on"),
        ("exit", "`exit` is no thread: t0, t1 and so on"),
        ("t exit", "thread `` is no number"),
        ("t-1 exit", "thread `-1` is no number"),
        ("t+1 exit", "thread `+1` is no number"),
        ("t256 exit", "thread `256` is above 255"),
        ("t0", "the call's name is missing"),
        ("t0 # exit", "the call's name is missing"),
        ("t0 leave", &format!("`leave` is no call: {calls}")),
        ("t0 Exit", &format!("`Exit` is no call: {calls}")),
        ("t0 exit 2", "exit takes no field: 1 given"),
        ("t0 enter", "enter takes area: 0 given"),
        ("t0 make 2", "make takes area, size: 1 given"),
        (
            "t0 store 2.1:0 0",
            "store takes object, slot, target: 2 given",
        ),
        ("t0 read 2.1:0 0 0", "read takes object, index: 3 given"),
        (
            "t0 start_helper 2",
            "start_helper takes kind, thread: 1 given",
        ),
        ("t0 start_helper t2 1", "kind `t2` is no number"),
        ("t0 start_helper 2 t", "thread `` is no number"),
        ("t0 start_helper 2 tt1", "thread `t1` is no number"),
        ("t0 start_helper 2 t65536", "thread `65536` is above 65535"),
        ("t0 remove", "remove takes area: 0 given"),
        ("t0 remove 2 8", "remove takes area: 2 given"),
        ("t0 enter t2", "area `t2` is no number"),
        ("t0 enter two", "area `two` is no number"),
        ("t0 enter 0x", "area `0x` is no number"),
        ("t0 enter 0xg", "area `0xg` is no number"),
        ("t0 enter 2.1:0", "area `2.1:0` is no number"),
        ("t0 enter 65536", "area `65536` is above 65535"),
        ("t0 allocate 0x10000 0", "slots `0x10000` is above 65535"),
        (
            "t0 make 2 18446744073709551616",
            "size `18446744073709551616` is above 18446744073709551615",
        ),
    ];
    for (line, reason) in rows {
        assert_eq!(told(line), reason, "{line}");
    }
}

#[test]
fn words_that_are_no_handle() {
    let rows = [
        ("x", "area.generation:offset, null or a number of 64 bits"),
        ("2.1", "area.generation:offset, null or a number of 64 bits"),
        (
            "Null",
            "area.generation:offset, null or a number of 64 bits",
        ),
        (
            "0x10000000000000000",
            "area.generation:offset, null or a number of 64 bits",
        ),
        ("2.1:", "offset `` is no number"),
        ("a.1:0", "area `a` is no number"),
        ("64.1:0", "area `64` is above 63"),
        (
            "2.17592186044416:0",
            "generation `17592186044416` is above 17592186044415",
        ),
        ("2.1:16384", "offset `16384` is above 16383"),
    ];
    for (word, reason) in rows {
        let object = told(&format!("t0 read {word} 0"));
        assert_eq!(object, format!("object `{word}` is no handle: {reason}"));
        let target = told(&format!("t0 store null 0 {word}"));
        assert_eq!(target, format!("target `{word}` is no handle: {reason}"));
    }
}

#[test]
fn every_unread_line_is_told() {
    let unread = assemble(b"t0 exit\n\nx\n\xff\xfe\nt0 exit\nt0 leave").expect_err("no calls");
    let lines: Vec<usize> = unread.iter().map(|unread| unread.line).collect();
    assert_eq!(lines, [3, 4, 6]);
}

/// The text of a call is read as that call, and gives its frame.
#[test]
fn text_and_frames_are_the_same_calls() {
    let mut calls = 0;
    for list in generated(1..100, 300) {
        for line in frame::lines(&list.frames) {
            if let Some(call) = frame::parse(line) {
                let written = text::print(call);
                assert_eq!(text::parse(&written), Ok(Some(call)), "{written}");
                assert_eq!(frames(&written).trim_end().as_bytes(), line);
                calls += 1;
            }
        }
    }
    assert!(calls > 20_000, "{calls} calls");
}

#[test]
fn examples_are_assembled() {
    for name in EXAMPLES {
        let frames = assemble(&example(name, "calls")).expect("calls");
        assert_eq!(frames, example(name, "frames"), "{name}");
    }
}
