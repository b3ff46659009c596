//! The programs, as they are called from a shell.

use std::io::Write;
use std::process::{Command, Output, Stdio};

const REFERENCE: &str = env!("CARGO_BIN_EXE_reference");
const GENERATE: &str = env!("CARGO_BIN_EXE_generate");
const COVERAGE: &str = env!("CARGO_BIN_EXE_coverage");
const CHECK: &str = env!("CARGO_BIN_EXE_check");
const DIFFER: &str = env!("CARGO_BIN_EXE_differ");
const RIGHTS_TABLE: &str = env!("CARGO_BIN_EXE_rights_table");
const RIGHTS_DIFFER: &str = env!("CARGO_BIN_EXE_rights_differ");

fn run(program: &str, arguments: &[&str]) -> Output {
    let output = Command::new(program).args(arguments).output();
    output.expect("the program runs")
}

fn last_line(output: &Output) -> String {
    let text = String::from_utf8_lossy(&output.stdout);
    text.lines().last().unwrap_or_default().to_string()
}

#[test]
fn reference_answers_a_generated_list() {
    let list = run(GENERATE, &["3", "2000"]).stdout;
    let mut child = Command::new(REFERENCE)
        .stdin(Stdio::piped())
        .stdout(Stdio::piped())
        .spawn()
        .expect("the program runs");
    let mut input = child.stdin.take().expect("a pipe");
    let fed = list.clone();
    let writer = std::thread::spawn(move || input.write_all(&fed));
    let output = child.wait_with_output().expect("an answer");
    writer.join().expect("no panic").expect("all was read");
    assert!(output.status.success());
    assert_eq!(output.stdout.len(), 2_000 * 19);
    assert_eq!(output.stdout, reference::frame::answers(&list));
}

#[test]
fn generate_writes_as_many_lines_as_asked() {
    for seed in ["1", "2", "3", "4", "5"] {
        let list = run(GENERATE, &[seed, "57"]).stdout;
        assert_eq!(reference::frame::lines(&list).len(), 57);
    }
    assert!(!run(GENERATE, &["1"]).status.success());
    assert!(!run(GENERATE, &["1", "x"]).status.success());
}

#[test]
fn check_passes() {
    let output = run(CHECK, &["1", "100", "3"]);
    assert!(output.status.success());
    assert_eq!(last_line(&output), "3 passed, 0 failed");
}

#[test]
fn coverage_is_whole() {
    let output = run(COVERAGE, &["1", "1000", "300"]);
    assert!(output.status.success());
    assert_eq!(last_line(&output), "0 not reached");
    assert!(!run(COVERAGE, &["1", "1", "10"]).status.success());
}

#[test]
fn differ_passes_the_same_program() {
    let output = run(DIFFER, &[REFERENCE, "1", "20", "300"]);
    assert!(output.status.success());
    assert_eq!(last_line(&output), "20 passed, 0 failed");
}

/// A program that returns its input, one that says nothing, and one that cannot be run.
#[test]
fn differ_fails_other_programs() {
    for program in ["cat", "true", "/no/such/program"] {
        let output = run(DIFFER, &[program, "1", "4", "3000"]);
        assert!(!output.status.success(), "{program}");
        assert_eq!(last_line(&output), "0 passed, 4 failed", "{program}");
        let text = String::from_utf8_lossy(&output.stdout).to_string();
        assert!(text.starts_with("seed 1, 3000 lines: "), "{text}");
    }
}

#[test]
fn differ_needs_a_list() {
    assert!(!run(DIFFER, &[REFERENCE, "1", "0", "300"]).status.success());
}

/// It stops reading where it knows that an input is another.
#[test]
fn rights_table_prints_digits_or_nothing() {
    let printed = |input: &[u8]| {
        let run = reference::program::run(RIGHTS_TABLE, input.to_vec()).expect("an end");
        assert!(run.success);
        String::from_utf8(run.output).expect("digits are text")
    };
    let built_in = "111100110000111111111111000011111111";
    assert_eq!(printed(b"f30\nfff\n0ff"), built_in);
    assert_eq!(printed(b"f30\nfff\n0ff\n"), built_in);
    assert_eq!(printed(b"f30\nfff\n0ff\n\n"), "");
    assert_eq!(printed(&[0; 1_000_000]), "");
}

#[test]
fn rights_differ_passes_the_same_program() {
    let output = run(RIGHTS_DIFFER, &[RIGHTS_TABLE, "1"]);
    assert!(output.status.success());
    assert!(last_line(&output).ends_with(" passed, 0 failed"));
}

#[test]
fn rights_differ_fails_other_programs() {
    for program in ["cat", "true", "/no/such/program"] {
        let output = run(RIGHTS_DIFFER, &[program, "1"]);
        assert!(!output.status.success(), "{program}");
        let last = last_line(&output);
        assert!(last.contains(" passed, ") && !last.ends_with(" 0 failed"));
    }
    assert!(!run(RIGHTS_DIFFER, &[RIGHTS_TABLE]).status.success());
}
