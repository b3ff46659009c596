//! Each kind's rights by area class: the constant table, which stays in force until a load, the
//! tables that a load takes, and the generator of their digits.

use crate::frame;
use crate::state::{HEAP, IMMORTAL};

/// "Kinds: 1 ordinary, 2 real-time, 3 no-heap."
#[derive(Clone, Copy, Debug, PartialEq, Eq)]
pub enum Kind {
    Ordinary = 1,
    RealTime = 2,
    NoHeap = 3,
}

impl Kind {
    pub fn from_number(number: u64) -> Option<Kind> {
        match number {
            1 => Some(Kind::Ordinary),
            2 => Some(Kind::RealTime),
            3 => Some(Kind::NoHeap),
            _ => None,
        }
    }
}

/// "in the order E (enter), A (allocate in), U (use an object of), R (store or load a reference to)"
#[derive(Clone, Copy, Debug, PartialEq, Eq)]
pub enum Right {
    Enter,
    Allocate,
    Use,
    Refer,
}

/// "36 text digits, ordered kind, class, right"
pub const DIGITS: usize = 36;

/// "A constant table gives each kind's rights by area class": kinds down; heap, immortal, scope
/// across.
pub const BUILT_IN: &[u8; DIGITS] = b"\
    111100110000\
    111111111111\
    000011111111";

/// A table that may be in force: its digits as text.
#[derive(Clone, Copy, Debug, PartialEq, Eq)]
pub struct RightsTable {
    digits: [u8; DIGITS],
}

impl RightsTable {
    pub fn built_in() -> RightsTable {
        RightsTable { digits: *BUILT_IN }
    }

    /// The table of a text: "Loading allows only 0 and 1, and A only with U."
    pub fn from_text(text: &[u8]) -> Option<RightsTable> {
        let text: [u8; DIGITS] = text.try_into().ok()?;
        let binary = text.iter().all(|digit| b"01".contains(digit));
        let mut classes = text.chunks(4);
        let a_without_u = classes.any(|class| class[1] == b'1' && class[2] == b'0');
        (binary && !a_without_u).then_some(RightsTable { digits: text })
    }

    /// The digits as text.
    pub fn digits(&self) -> &[u8; DIGITS] {
        &self.digits
    }

    pub fn has_right(&self, kind: Kind, area: u64, right: Right) -> bool {
        let class = match area {
            HEAP => 0,
            IMMORTAL => 1,
            _ => 2,
        };
        let row = kind as usize - 1;
        self.digits[row * 12 + class * 4 + right as usize] == b'1'
    }
}

/// The generator: "prints them alone from one line for each kind with one hexadecimal digit a class,
/// written as in frames, E as bit 3 down to R as bit 0, and nothing for other input".
pub fn digits_of(input: &[u8]) -> Vec<u8> {
    match frame::lines(input)[..] {
        [first, second, third] => digits_of_kinds([first, second, third]).unwrap_or_default(),
        _ => Vec::new(),
    }
}

fn digits_of_kinds(lines: [&[u8]; 3]) -> Option<Vec<u8>> {
    let mut digits = Vec::new();
    for line in lines {
        let classes: [u8; 3] = line.try_into().ok()?;
        for class in classes {
            digits.extend(format!("{:04b}", frame::digit(class)?).bytes());
        }
    }
    Some(digits)
}
