//! `differ PROGRAM FIRST_SEED LISTS COUNT` feeds generated lists to PROGRAM and compares its answers
//! byte for byte with the library's.

use std::process::exit;

use reference::{arguments, frame, generator, program};

const USAGE: &str = "differ PROGRAM FIRST_SEED LISTS COUNT";

fn main() {
    let words: Vec<String> = std::env::args().skip(1).collect();
    let Some((program, numbers)) = words.split_first() else {
        arguments::leave(USAGE)
    };
    let numbers = arguments::parse(numbers);
    let [first, lists, count] = numbers.unwrap_or_else(|| arguments::leave(USAGE));
    if lists == 0 {
        arguments::leave(USAGE);
    }
    let failed = run_lists(program, first, lists, count);
    println!("{} passed, {failed} failed", lists - failed);
    exit(i32::from(failed > 0));
}

/// The number of lists that failed; the first of them is explained.
fn run_lists(program: &str, first: u64, lists: u64, count: u64) -> u64 {
    let mut failed = 0;
    for seed in first..first + lists {
        let Err(words) = compare(program, seed, count) else {
            continue;
        };
        if failed == 0 {
            println!("seed {seed}, {count} lines: {words}");
        }
        failed += 1;
    }
    failed
}

fn compare(program: &str, seed: u64, count: u64) -> Result<(), String> {
    let list = generator::list(seed, count);
    let expected = frame::answers(&list);
    let run = program::run(program, list.clone())
        .map_err(|error| format!("{program} did not run to its end: {error}"))?;
    if run.output != expected {
        return Err(first_difference(&list, &expected, &run.output));
    }
    if !(run.success && run.all_read) {
        return Err("the answers are right, but the program failed at its end".into());
    }
    Ok(())
}

/// The first line whose answers differ: the line, the expected and the given answer.
fn first_difference(list: &[u8], expected: &[u8], given: &[u8]) -> String {
    let lines = frame::lines(list);
    let mut expected = expected.split_inclusive(|&byte| byte == b'\n');
    let mut given = given.split_inclusive(|&byte| byte == b'\n');
    let mut number = 0;
    loop {
        let (wanted, got) = (expected.next(), given.next());
        if wanted != got {
            let line = lines.get(number).copied();
            let number = number + 1;
            return format!(
                "line {number} differs\n  frame    {}\n  expected {}\n  given    {}",
                quoted(line),
                quoted(wanted),
                quoted(got)
            );
        }
        number += 1;
    }
}

fn quoted(bytes: Option<&[u8]>) -> String {
    bytes.map_or("(nothing)".into(), program::quoted)
}
