//! Handles and headers, by plain arithmetic over their fields.

/// "Null is 0."
pub const NULL: u64 = 0;

const OFFSETS: u64 = 1 << 14;
const AREAS: u64 = 1 << 6;

/// "word offset in its area in bits 0 to 13, area in bits 14 to 19, turn in bits 20 to 63"
#[derive(Clone, Copy, Debug, PartialEq, Eq)]
pub struct Handle {
    pub offset: u64,
    pub area: u64,
    pub generation: u64,
}

impl Handle {
    pub fn unpack(word: u64) -> Handle {
        Handle {
            offset: word % OFFSETS,
            area: word / OFFSETS % AREAS,
            generation: word / OFFSETS / AREAS,
        }
    }

    pub fn pack(self) -> u64 {
        (self.generation * AREAS + self.area) * OFFSETS + self.offset
    }
}

/// "header (s in bits 0 to 13, d in bits 14 to 27, the rest 0)"
#[derive(Clone, Copy, Debug, PartialEq, Eq)]
pub struct Header {
    pub slots: u64,
    pub data: u64,
}

impl Header {
    /// The rest is passed over: it is none of the conditions of liveness.
    pub fn unpack(word: u64) -> Header {
        Header {
            slots: word % OFFSETS,
            data: word / OFFSETS % OFFSETS,
        }
    }

    pub fn pack(self) -> u64 {
        self.data * OFFSETS + self.slots
    }

    /// "takes 1 + s + d words"
    pub fn words(self) -> u64 {
        1 + self.slots + self.data
    }
}
