//! Lines that are no frames, made from frames that would have run.

use crate::frame::{parse, DIGITS};
use crate::random::Random;

/// Bytes just outside the digits' ranges, and letters that other notations allow.
const WRONG_BYTES: &[u8] = b"/:`g@GxXzZ-+_.,\"\x7f\x01\x0b\x0c\x1b";

/// A line that is no frame, without its line feed.
pub fn spoil(random: &mut Random, frame: &[u8]) -> Vec<u8> {
    loop {
        let line = spoil_once(random, frame);
        if parse(&line).is_none() {
            return line;
        }
    }
}

fn spoil_once(random: &mut Random, frame: &[u8]) -> Vec<u8> {
    match random.below(12) {
        0 => Vec::new(),
        1 => frame[..random.between(1, DIGITS as u64 - 1) as usize].to_vec(),
        2 => lengthen(random, frame),
        3 => upper_case(random, frame),
        4 => put_byte(random, frame, 0),
        5 => put_byte(random, frame, b'\r'),
        6 => put_blank(random, frame),
        7 => put_high_byte(random, frame),
        8 => put_wrong_byte(random, frame),
        9 => change_op(random, frame),
        10 => use_field(random, frame),
        _ => repeat(random, frame),
    }
}

/// Further digits, a few or many.
fn lengthen(random: &mut Random, frame: &[u8]) -> Vec<u8> {
    let extra = match random.below(20) {
        0 => random.between(60_000, 140_000),
        1 | 2 => random.between(100, 5_000),
        3..=9 => 1,
        _ => random.between(2, 50),
    };
    let mut line = frame.to_vec();
    line.extend((0..extra).map(|_| b'0'));
    line
}

/// Two or more frames on one line.
fn repeat(random: &mut Random, frame: &[u8]) -> Vec<u8> {
    frame.repeat(random.between(2, 4) as usize)
}

fn upper_case(random: &mut Random, frame: &[u8]) -> Vec<u8> {
    let letters: Vec<usize> = (0..frame.len())
        .filter(|&place| frame[place].is_ascii_lowercase())
        .collect();
    let mut line = frame.to_vec();
    match random.one_of(&letters) {
        Some(place) => line[place] = line[place].to_ascii_uppercase(),
        None => line[random.below(DIGITS as u64) as usize] = b'A',
    }
    line
}

/// The byte in place of a digit, before the frame, behind it or between two digits.
fn put_byte(random: &mut Random, frame: &[u8], byte: u8) -> Vec<u8> {
    let mut line = frame.to_vec();
    let place = random.below(DIGITS as u64) as usize;
    match random.below(4) {
        0 => line[place] = byte,
        1 => line.push(byte),
        2 => line.insert(0, byte),
        _ => line.insert(place, byte),
    }
    line
}

fn put_blank(random: &mut Random, frame: &[u8]) -> Vec<u8> {
    let blank = if random.percent(30) { b'\t' } else { b' ' };
    if random.percent(15) {
        return vec![blank; random.between(1, 60) as usize];
    }
    put_byte(random, frame, blank)
}

fn put_high_byte(random: &mut Random, frame: &[u8]) -> Vec<u8> {
    let high = if random.percent(50) {
        // A digit with its highest bit set.
        frame[random.below(DIGITS as u64) as usize] | 0x80
    } else {
        random.between(0x80, 0xff) as u8
    };
    put_byte(random, frame, high)
}

fn put_wrong_byte(random: &mut Random, frame: &[u8]) -> Vec<u8> {
    let wrong = WRONG_BYTES[random.below(WRONG_BYTES.len() as u64) as usize];
    put_byte(random, frame, wrong)
}

/// An op that does not exist.
fn change_op(random: &mut Random, frame: &[u8]) -> Vec<u8> {
    let op = match random.below(4) {
        0 => 0x00,
        1 => random.between(0x0d, 0x12),
        2 => 0x10 + random.between(0x01, 0x0c),
        _ => random.between(0x0d, 0xff),
    };
    let mut line = frame.to_vec();
    line[..2].copy_from_slice(format!("{op:02x}").as_bytes());
    line
}

/// A digit of p, q or r that is not 0, in an unused field if the op has one.
fn use_field(random: &mut Random, frame: &[u8]) -> Vec<u8> {
    let mut line = frame.to_vec();
    for _ in 0..8 {
        line = frame.to_vec();
        let (first, last) = match random.below(3) {
            0 => (4, 19),
            1 => (20, 23),
            _ => (24, 39),
        };
        let place = random.between(first, last) as usize;
        line[place] = b"123456789abcdef"[random.below(15) as usize];
        if parse(&line).is_none() {
            break;
        }
    }
    line
}
