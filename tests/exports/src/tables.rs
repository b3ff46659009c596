//! The tables of a state as a set-up in place is given them: with any contents, and bytes around them
//! that it may not touch.

use crate::exports::{NewState, STATE_BYTES, STATE_WORDS};

/// What the place holds before.
const PAINT: u8 = 0xa5;

/// A state's words and its bytes, each between bytes of paint.
#[repr(C)]
pub struct Tables {
    before: [u8; 64],
    pub words: [u64; STATE_WORDS],
    between: [u8; 64],
    pub bytes: [u8; STATE_BYTES],
    behind: [u8; 60],
}

impl Tables {
    pub fn painted() -> Tables {
        Tables {
            before: [PAINT; 64],
            words: [u64::from_ne_bytes([PAINT; 8]); STATE_WORDS],
            between: [PAINT; 64],
            bytes: [PAINT; STATE_BYTES],
            behind: [PAINT; 60],
        }
    }

    /// Whether no byte around the tables was touched.
    pub fn intact(&self) -> bool {
        let around = self.before.iter().chain(&self.between);
        around.chain(&self.behind).all(|&byte| byte == PAINT)
    }

    /// The state with the status of its set-up.
    pub fn state(&self, status: u64) -> NewState {
        NewState {
            status,
            words: self.words,
            bytes: self.bytes,
        }
    }
}
