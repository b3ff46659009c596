//! Texts for loads: tables of rights, and bytes that are none.

use std::fmt;

use crate::random::Random;
use crate::rights::{BUILT_IN, DIGITS};

/// A text of at most 40 bytes, held in place.
#[derive(Clone, Copy, PartialEq, Eq)]
pub struct Text {
    bytes: [u8; Text::MOST],
    length: usize,
}

impl Text {
    const MOST: usize = 40;

    pub fn new(text: &[u8]) -> Text {
        let mut bytes = [0; Text::MOST];
        let length = text.len();
        bytes[..length].copy_from_slice(text);
        Text { bytes, length }
    }

    pub fn bytes(&self) -> &[u8] {
        &self.bytes[..self.length]
    }
}

impl fmt::Debug for Text {
    fn fmt(&self, out: &mut fmt::Formatter<'_>) -> fmt::Result {
        write!(out, "\"{}\"", self.bytes().escape_ascii())
    }
}

/// Mostly a table.
pub fn any(random: &mut Random) -> Text {
    if random.percent(70) {
        return table(random);
    }
    spoilt(random)
}

/// A table that a load takes: the built-in one, one beside it or beside the one of all rights, or
/// one of any digits.
pub fn table(random: &mut Random) -> Text {
    let mut digits = match random.below(6) {
        0 => *BUILT_IN,
        1 | 2 => changed(random, *BUILT_IN),
        3 | 4 => changed(random, [b'1'; DIGITS]),
        _ => [(); DIGITS].map(|()| any_digit(random)),
    };
    for class in digits.chunks_mut(4) {
        if class[1] == b'1' {
            class[2] = b'1';
        }
    }
    Text::new(&digits)
}

fn any_digit(random: &mut Random) -> u8 {
    b'0' + random.below(2) as u8
}

fn changed(random: &mut Random, mut digits: [u8; DIGITS]) -> [u8; DIGITS] {
    for _ in 0..random.between(1, 6) {
        digits[any_place(random)] = any_digit(random);
    }
    digits
}

fn any_place(random: &mut Random) -> usize {
    random.below(DIGITS as u64) as usize
}

/// A table with one fault.
pub fn spoilt(random: &mut Random) -> Text {
    let mut text = table(random).bytes().to_vec();
    let place = any_place(random);
    match random.below(14) {
        0 | 1 => text.truncate(DIGITS - 1),
        2 => text.truncate(place),
        3 | 4 => text.push(any_digit(random)),
        5 => text.resize(Text::MOST, b'0'),
        6 => text.push(b'\n'),
        7 => text.push(0),
        8 => text[place] = b'2',
        9 => text[place] = b'/',
        10 => text[place] = random.one_of(b"\0\n\r -+:Ol").unwrap_or(0),
        11 => text[place] |= 0x80,
        12 => text.iter_mut().for_each(|digit| *digit -= b'0'),
        // A without U.
        _ => text[place / 4 * 4 + 1..][..2].copy_from_slice(b"10"),
    }
    Text::new(&text)
}
