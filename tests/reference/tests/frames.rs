//! "Frames on lines".

use reference::frame::{answers, lines, parse, print, run};
use std::io::{BufRead, BufReader, Read};

const EXAMPLE: &str = "\
0100000000000000000200000000000000000000
0300000000000000000000020000000000000008
0400000000000000000000020000000000000000
0600000000000000000000010000000000000001
0500000000000000000000000000000000000000
0a00000000000010800000000000000000000000
";

const EXAMPLE_ANSWERS: &str = "\
000000000000000000
000000000000000000
000000000000000001
000000000000108000
000000000000000000
0d0000000000000000
";

const START: &str = "0100000000000000000200000000000000000000";
const ACCEPTED: &str = "000000000000000000\n";
const NO_FRAME: &str = "120000000000000000\n";

fn text(list: impl AsRef<[u8]>) -> String {
    String::from_utf8(answers(list.as_ref())).expect("answers are text")
}

#[test]
fn example_of_document_01() {
    assert_eq!(text(EXAMPLE), EXAMPLE_ANSWERS);
}

/// A word that nobody wrote, then a 0 that was written: 19 is 13 in hexadecimal.
#[test]
fn unwritten_word() {
    let list = "\
0100000000000000000200000000000000000000
0600000000000000000000000000000000000001
0a00000000000010000000000000000000000000
0900000000000010000000000000000000000000
0a00000000000010000000000000000000000000
";
    let expected = "\
000000000000000000
000000000000100000
130000000000000000
000000000000000000
000000000000000000
";
    assert_eq!(text(list), expected);
}

/// No-heap thread 5 begins in scope 2, which thread 0 leaves to it.
#[test]
fn helper() {
    let list = "\
0100000000000000000200000000000000000000
0300000000000000000000020000000000000008
0400000000000000000000020000000000000000
0b00000000000000000300050000000000000000
0500000000000000000000000000000000000000
0505000000000000000000000000000000000000
";
    let expected = "\
000000000000000000
000000000000000000
000000000000000001
000000000000000000
000000000000000001
000000000000000000
";
    assert_eq!(text(list), expected);
}

/// Scope 2 is refused by 20, which is 14 in hexadecimal, while thread 0 stands in it; then it is
/// removed, and made again it goes on with generation 2. Op 0d does not exist.
#[test]
fn removal() {
    let list = "\
0100000000000000000200000000000000000000
0300000000000000000000020000000000001000
0400000000000000000000020000000000000000
0c00000000000000000000020000000000000000
0500000000000000000000000000000000000000
0300000000000000000000030000000000000001
0c00000000000000000000020000000000000000
0c00000000000000000000020000000000000000
0300000000000000000000030000000000000001
0300000000000000000000020000000000000008
0400000000000000000000020000000000000000
0d00000000000000000000000000000000000000
";
    let expected = "\
000000000000000000
000000000000000000
000000000000000001
140000000000000000
000000000000000000
080000000000000000
000000000000000000
060000000000000000
000000000000000000
000000000000000000
000000000000000002
120000000000000000
";
    assert_eq!(text(list), expected);
}

#[test]
fn last_line_feed_may_be_missing() {
    assert_eq!(text(EXAMPLE.trim_end()), EXAMPLE_ANSWERS);
    assert_eq!(text(START), ACCEPTED);
    assert_eq!(text("0"), NO_FRAME);
}

#[test]
fn empty_rest_is_no_line() {
    assert_eq!(text(""), "");
    assert_eq!(text("\n"), NO_FRAME);
    assert_eq!(text("\n\n"), NO_FRAME.repeat(2));
    assert_eq!(text(format!("{START}\n")), ACCEPTED);
    assert_eq!(text(format!("{START}\n\n")), [ACCEPTED, NO_FRAME].concat());
}

/// Each line is no frame, and a start of the same thread after it is accepted.
#[test]
fn lines_that_are_no_frames() {
    let wrong: [&[u8]; 16] = [
        b"",
        b" ",
        b"010000000000000000020000000000000000000",
        b"01000000000000000002000000000000000000000",
        b"0100000000000000000200000000000000000000\r",
        b"010000000000000000020000000000000000000\r",
        b"0100000000000000000200000000000000000000 ",
        b" 0100000000000000000200000000000000000000",
        b"010000000000000000020000000000000000000\0",
        b"0100000000000000000200000000000000000000\0",
        b"010000000000000000020000000000000000000g",
        b"01000000000000000002000000000000000000:0",
        b"01000000000000000002000000000000000000/0",
        b"01000000000000000002000000000000000000`0",
        b"\xb0100000000000000000200000000000000000000",
        b"01000000000000000002000000000000000000000100000000000000000200000000000000000000",
    ];
    for line in wrong {
        let mut list = line.to_vec();
        list.extend(format!("\n{START}\n").bytes());
        assert_eq!(text(&list), [NO_FRAME, ACCEPTED].concat(), "{line:?}");
    }
}

#[test]
fn digits_are_lower_case() {
    let frame = "090000000000001000000000000000000000000a";
    assert!(parse(frame.as_bytes()).is_some());
    assert!(parse(frame.to_uppercase().as_bytes()).is_none());
}

#[test]
fn ops_that_do_not_exist() {
    for op in 0..=255 {
        let line = format!("{op:02x}{}", "0".repeat(38));
        let exists = (1..=12).contains(&op);
        assert_eq!(parse(line.as_bytes()).is_some(), exists, "op {op:02x}");
    }
}

/// "unused fields are 0", by the table's "(fields used)".
#[test]
fn unused_fields() {
    let used = [
        (0x01, "p"),
        (0x02, ""),
        (0x03, "qr"),
        (0x04, "q"),
        (0x05, ""),
        (0x06, "qr"),
        (0x07, "pqr"),
        (0x08, "pq"),
        (0x09, "pqr"),
        (0x0a, "pq"),
        (0x0b, "pq"),
        (0x0c, "q"),
    ];
    for (op, used) in used {
        for (field, places) in [('p', 4..20), ('q', 20..24), ('r', 24..40)] {
            for place in places {
                let mut line = format!("{op:02x}{}", "0".repeat(38)).into_bytes();
                line[place] = b'1';
                let is_frame = parse(&line).is_some();
                assert_eq!(is_frame, used.contains(field), "op {op:02x}, {place}");
            }
        }
    }
}

/// "Too large is not malformed".
#[test]
fn too_large_is_a_frame() {
    let list = "\
01ff000000000000000200000000000000000000
0110000000000000000200000000000000000000
0100ffffffffffffffff00000000000000000000
0100000000000000000200000000000000000000
04000000000000000000ffff0000000000000000
0400000000000000000000400000000000000000
030000000000000000000002ffffffffffffffff
06000000000000000000ffffffffffffffffffff
0bff000000000000000200010000000000000000
0b00000000000000000200100000000000000000
0b000000000000000002ffff0000000000000000
0b00ffffffffffffffff00010000000000000000
0cff000000000000000000020000000000000000
0c00000000000000000000400000000000000000
0c000000000000000000ffff0000000000000000
";
    let statuses: Vec<String> = text(list).lines().map(|l| l[..2].to_string()).collect();
    let expected = [
        "02", "02", "04", "00", "06", "06", "08", "0c", "02", "02", "02", "04", "02", "06", "06",
    ];
    assert_eq!(statuses, expected);
}

/// Line feeds wherever the buffer's borders fall.
#[test]
fn buffers_of_any_size() {
    let list = format!("{EXAMPLE}\n{}\n{START}", "0".repeat(1_000));
    let expected = text(&list);
    for size in 1..100 {
        let mut output = Vec::new();
        let input = BufReader::with_capacity(size, list.as_bytes());
        run(input, &mut output).expect("memory");
        assert_eq!(String::from_utf8(output).expect("text"), expected);
    }
}

/// A line far longer than any buffer is one 18.
#[test]
fn long_line() {
    let long = std::io::repeat(b'0').take(50_000_000);
    let rest = format!("\n{START}\n");
    let mut input = BufReader::new(long).chain(rest.as_bytes());
    assert!(!input.fill_buf().expect("memory").is_empty());
    let mut output = Vec::new();
    run(input, &mut output).expect("memory");
    assert_eq!(output, [NO_FRAME, ACCEPTED].concat().into_bytes());
}

#[test]
fn printed_frames_parse() {
    for line in lines(EXAMPLE.as_bytes()) {
        let call = parse(line).expect("a frame");
        assert_eq!(print(call), line);
    }
}
