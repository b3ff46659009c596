//! "Each call gives status 0 and a value, or a refusal and 0."

/// The refusals of document 01 and of later requests by their numbers.
#[derive(Clone, Copy, Debug, PartialEq, Eq)]
pub enum Refusal {
    /// "lengths are not those of set-up"
    Lengths = 1,
    /// "thread above 15, or not started (op 01: above 15 only)"
    Thread = 2,
    /// "thread started and not ended"
    Started = 3,
    /// "kind not 1, 2 or 3"
    Kind = 4,
    /// "rights table has 0"
    Right = 5,
    /// "area above 63 or scope not made (op 03: outside 2 to 63)"; op 0c: "outside 2 to 63, or not
    /// made"
    Area = 6,
    /// "scope already made"
    Made = 7,
    /// "size 0 or no such run"
    Size = 8,
    /// "stack has 32 entries"
    StackFull = 9,
    /// "scope open with another parent"
    Parent = 10,
    /// "exit with empty stack; end with entries"
    Entries = 11,
    /// "used + 1 + s + d above the size"
    Room = 12,
    /// "object null or not live"
    Object = 13,
    /// "slot or data index not below s or d"
    Index = 14,
    /// "target or loaded word neither null nor live"
    Target = 15,
    /// "assignment rule forbids"
    Assignment = 16,
    /// "scope not open, its turn 2^44 - 1"
    GenerationsOut = 17,
    /// "line not a frame"
    Frame = 18,
    /// "op 0a meets a word whose bit there is 0", in the written map
    Unwritten = 19,
    /// "the scope is open"
    Open = 20,
    /// "there are not 36 digits or they break these rules"
    Table = 23,
    /// "any thread is started"
    Running = 24,
}

/// What a call comes to inside the machine: its value or its refusal.
pub type Outcome = Result<u64, Refusal>;

/// What the caller sees: a status and a value.
#[derive(Clone, Copy, Debug, PartialEq, Eq)]
pub struct Answer {
    pub status: u64,
    pub value: u64,
}

impl Answer {
    pub fn accepted(value: u64) -> Answer {
        Answer { status: 0, value }
    }

    /// "a refusal and 0"
    pub fn refused(refusal: Refusal) -> Answer {
        let status = refusal as u64;
        Answer { status, value: 0 }
    }

    pub fn is_accepted(self) -> bool {
        self.status == 0
    }
}

impl From<Outcome> for Answer {
    fn from(outcome: Outcome) -> Answer {
        match outcome {
            Ok(value) => Answer::accepted(value),
            Err(refusal) => Answer::refused(refusal),
        }
    }
}

/// One check of a row: the refusal if the condition holds.
pub fn refuse_if(condition: bool, refusal: Refusal) -> Result<(), Refusal> {
    if condition {
        Err(refusal)
    } else {
        Ok(())
    }
}
