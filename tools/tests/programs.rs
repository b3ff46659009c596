//! The programs, as they are called from a shell.

mod common;

use std::path::{Path, PathBuf};
use std::process::{Command, Output};

use common::{example, path};

const EXPLAIN: &str = env!("CARGO_BIN_EXE_explain");
const ASSEMBLE: &str = env!("CARGO_BIN_EXE_assemble");
const PICTURE: &str = env!("CARGO_BIN_EXE_picture");

fn run(program: &str, arguments: &[&Path]) -> Output {
    let output = Command::new(program).args(arguments).output();
    output.expect("the program runs")
}

fn example_path(name: &str, kind: &str) -> PathBuf {
    path(&format!("examples/{name}.{kind}"))
}

/// A file of the tests' own, by its name.
fn written(name: &str, bytes: &[u8]) -> PathBuf {
    let path = Path::new(env!("CARGO_TARGET_TMPDIR")).join(name);
    std::fs::write(&path, bytes).expect("a file is written");
    path
}

/// The program ends with this status, these words on standard error, and nothing written.
fn assert_refused(output: &Output, status: i32, words: &str) {
    assert_eq!(output.status.code(), Some(status));
    assert_eq!(output.stdout, b"");
    let told = String::from_utf8_lossy(&output.stderr);
    assert!(told.contains(words), "{told}");
}

#[test]
fn explain_writes_the_words() {
    let (frames, answers) = (
        example_path("sample", "frames"),
        example_path("sample", "answers"),
    );
    let words = String::from_utf8(run(EXPLAIN, &[&frames, &answers]).stdout).expect("text");
    let last = "t0 read 2.1:0 index 0 → refused 13: object null or not live";
    assert_eq!(
        (words.lines().count(), words.lines().last()),
        (6, Some(last))
    );
    let columns = run(EXPLAIN, &[Path::new("--frames"), &frames, &answers]).stdout;
    let columns = String::from_utf8(columns).expect("text");
    let last = format!("0a00000000000010800000000000000000000000 0d0000000000000000 {last}");
    assert_eq!(
        (columns.lines().count(), columns.lines().last()),
        (7, Some(&last[..]))
    );
}

#[test]
fn explain_and_picture_need_an_answer_for_each_line() {
    let frames = example_path("sample", "frames");
    let answers = written("one.answers", b"000000000000000000\n");
    for program in [EXPLAIN, PICTURE] {
        let output = run(program, &[&frames, &answers]);
        assert_refused(&output, 1, "line 2 of the list has no answer\n");
    }
}

#[test]
fn assemble_writes_frames_alone() {
    let output = run(ASSEMBLE, &[&example_path("sample", "calls")]);
    assert!(output.status.success());
    assert_eq!(output.stdout, example("sample", "frames"));
    assert_eq!(output.stderr, b"");
}

#[test]
fn assemble_tells_each_line_and_writes_nothing() {
    let calls = written("wrong.calls", b"t0 start 2\nt0 enter\n\nt0 leave\n");
    let told = "\
        line 2: enter takes area: 0 given\n\
        line 4: `leave` is no call: start, end, make, enter, exit, allocate, store, load, write, read, \
        start_helper, remove\n";
    let output = run(ASSEMBLE, &[&calls]);
    assert_refused(&output, 1, told);
}

#[test]
fn picture_stops_where_the_answers_are_others() {
    let frames = example_path("sample", "frames");
    let answers = written(
        "others.answers",
        "000000000000000000\n".repeat(6).as_bytes(),
    );
    let output = run(PICTURE, &[&frames, &answers]);
    assert_refused(
        &output,
        1,
        "line 3: t0 enter 2 → generation 0, but the second implementation answers: generation 1\n",
    );
}

#[test]
fn wrong_arguments_and_files() {
    let missing = Path::new("no/such/file");
    for (program, files) in [(EXPLAIN, 2), (ASSEMBLE, 1), (PICTURE, 2)] {
        assert_refused(&run(program, &[]), 2, "usage: ");
        assert_refused(&run(program, &[missing; 4]), 2, "usage: ");
        assert_refused(&run(program, &vec![missing; files]), 2, "no/such/file: ");
    }
}
