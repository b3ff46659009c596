//! `rights_differ PROGRAM SEED` feeds lines of rights tables, right ones and spoilt ones, to PROGRAM
//! and compares the digits that it prints with the library's.

use std::process::exit;

use reference::random::Random;
use reference::rights::digits_of;
use reference::{arguments, program};

const USAGE: &str = "rights_differ PROGRAM SEED";

const BUILT_IN: &[u8] = b"f30\nfff\n0ff\n";
/// How many inputs are lines of any digits.
const RANDOM: usize = 300;
/// Bytes just outside the digits' ranges, digits with their highest bit set, and other bytes that are
/// no digits.
const WRONG: &[u8] = b"Fg /:`@G\r\n\t\0-x\x7f\x80\xb0\xe6\xff";

fn main() {
    let words: Vec<String> = std::env::args().skip(1).collect();
    let Some((program, numbers)) = words.split_first() else {
        arguments::leave(USAGE)
    };
    let numbers = arguments::parse(numbers);
    let [seed] = numbers.unwrap_or_else(|| arguments::leave(USAGE));
    let inputs = inputs(&mut Random::new(seed));
    let failures = inputs
        .iter()
        .filter_map(|input| compare(program, input).err());
    let failures: Vec<String> = failures.collect();
    if let Some(words) = failures.first() {
        println!("{words}");
    }
    let failed = failures.len();
    println!("{} passed, {failed} failed", inputs.len() - failed);
    exit(i32::from(failed > 0));
}

/// The program may stop reading where it knows that an input is another.
fn compare(program: &str, input: &[u8]) -> Result<(), String> {
    let quoted = program::quoted(input);
    let run = program::run(program, input.to_vec())
        .map_err(|error| format!("{quoted}: {program} did not run to its end: {error}"))?;
    let expected = digits_of(input);
    if run.output != expected {
        let [given, expected] = [&run.output, &expected].map(|bytes| program::quoted(bytes));
        return Err(format!("{quoted}: \"{given}\", expected \"{expected}\""));
    }
    if !run.success {
        return Err(format!("{quoted}: the program failed at its end"));
    }
    Ok(())
}

fn inputs(random: &mut Random) -> Vec<Vec<u8>> {
    let mut inputs = vec![BUILT_IN.to_vec(), BUILT_IN[..11].to_vec()];
    inputs.extend((0..RANDOM).map(|_| any_lines(random)));
    let lines = any_lines_of_twelve(random);
    inputs.extend((0..lines.len()).map(|length| lines[..length].to_vec()));
    for &byte in WRONG {
        inputs.extend((0..lines.len()).map(|place| put(&lines, place, byte)));
        inputs.extend((0..=lines.len()).map(|place| put_between(&lines, place, byte)));
    }
    inputs.extend(other_forms(&lines));
    inputs
}

/// Three lines of any digits.
fn any_lines_of_twelve(random: &mut Random) -> Vec<u8> {
    let [first, second, third] = [(); 3].map(|()| random.below(0x1000));
    format!("{first:03x}\n{second:03x}\n{third:03x}\n").into_bytes()
}

/// The last line feed is missing now and then.
fn any_lines(random: &mut Random) -> Vec<u8> {
    let mut lines = any_lines_of_twelve(random);
    if random.percent(50) {
        lines.pop();
    }
    lines
}

fn put(lines: &[u8], place: usize, byte: u8) -> Vec<u8> {
    let mut input = lines.to_vec();
    input[place] = byte;
    input
}

fn put_between(lines: &[u8], place: usize, byte: u8) -> Vec<u8> {
    let mut input = lines.to_vec();
    input.insert(place, byte);
    input
}

/// Digits with no lines, lines of other lengths, more lines, and inputs longer than any buffer.
fn other_forms(lines: &[u8]) -> Vec<Vec<u8>> {
    let digits: Vec<u8> = lines
        .iter()
        .copied()
        .filter(|&byte| byte != b'\n')
        .collect();
    let carriage_returns = lines.split(|&byte| byte == b'\n').collect::<Vec<_>>();
    vec![
        digits.clone(),
        [&digits, &b"\n\n\n"[..]].concat(),
        carriage_returns.join(&b"\r\n"[..]),
        [lines, b"000"].concat(),
        [lines, b"000\n"].concat(),
        lines.repeat(2),
        lines.repeat(20_000),
        vec![b'f'; 200_000],
        vec![b'\n'; 200_000],
    ]
}
