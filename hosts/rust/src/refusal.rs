//! Why a call was refused, by the numbers of the specification.

use core::error::Error;
use core::fmt;

use crate::sys::Answer;

/// Declares the refusals with their numbers, and the way from one to the other.
macro_rules! refusals {
    ($($(#[$doc:meta])* $name:ident = $number:literal,)*) => {
        /// A refused call: it changed nothing. [`Refusal::number`] is its number. There may be more
        /// of them in a later version.
        #[derive(Clone, Copy, Debug, PartialEq, Eq, Hash)]
        #[non_exhaustive]
        pub enum Refusal {
            $($(#[$doc])* $name,)*
            /// A status that this crate has no name for: the archive is of a later version.
            #[non_exhaustive]
            Unknown {
                /// The status.
                status: u64,
            },
        }

        impl Refusal {
            /// The refusal with a number, if this crate has a name for it.
            pub const fn from_number(number: u64) -> Option<Refusal> {
                match number {
                    $($number => Some(Refusal::$name),)*
                    _ => None,
                }
            }

            /// Its number.
            pub const fn number(self) -> u64 {
                match self {
                    $(Refusal::$name => $number,)*
                    Refusal::Unknown { status } => status,
                }
            }
        }
    };
}

refusals! {
    /// The buffers' lengths do not fit (set-up) or are not those of set-up.
    Lengths = 1,
    /// Thread above 15, or not started; of `start`, and the helper of `start_helper`: above 15 only.
    Thread = 2,
    /// Thread (of `start_helper`: the helper) started and not ended.
    Started = 3,
    /// Kind not 1, 2 or 3; [`Kind`](crate::Kind) has no other.
    Kind = 4,
    /// The thread's kind (of `start_helper`: the helper's) lacks the right, by the table in force.
    Right = 5,
    /// Area above 63, or scope not made; of `make`: no scope's number; of `remove`: that, or not made.
    Area = 6,
    /// Scope already made.
    Made = 7,
    /// Size 0, or no run of free blocks holds it.
    Size = 8,
    /// Stack has 32 entries.
    StackFull = 9,
    /// Scope open with another parent.
    Parent = 10,
    /// Exit or pop with an empty stack; end with entries.
    Entries = 11,
    /// The object does not fit into the current area.
    Room = 12,
    /// The object is not live.
    Object = 13,
    /// Slot or data index not below the object's.
    Index = 14,
    /// The target or the loaded word is not live.
    Target = 15,
    /// The assignment rule forbids the reference.
    Assignment = 16,
    /// Scope not open, its generation the last one, 2^44 - 1.
    GenerationsOut = 17,
    /// Read: nobody wrote this data word since the object was made.
    Unwritten = 19,
    /// The scope is open.
    Open = 20,
    /// A rights table has not 36 digits, a digit other than 0 and 1, or A without U.
    Table = 23,
    /// A thread is started.
    Running = 24,
}

impl fmt::Display for Refusal {
    fn fmt(&self, out: &mut fmt::Formatter<'_>) -> fmt::Result {
        match self {
            Refusal::Unknown { status } => {
                write!(out, "refused by {status}, which has no name here")
            }
            named => write!(out, "refused by {}, {named:?}", named.number()),
        }
    }
}

impl Error for Refusal {}

/// The refusal of a status, if it is one.
pub(crate) fn check(status: u64) -> Result<(), Refusal> {
    if status == 0 {
        return Ok(());
    }
    Err(Refusal::from_number(status).unwrap_or(Refusal::Unknown { status }))
}

/// The value of an answer, or its refusal.
pub(crate) fn value(answer: Answer) -> Result<u64, Refusal> {
    check(answer.status).map(|()| answer.value)
}

#[cfg(test)]
mod tests {
    use super::*;

    /// A status of a later archive is told as it is.
    #[test]
    fn unknown_status() {
        for status in [18, 21, 25, u64::MAX] {
            let refused = value(Answer { status, value: 0 }).unwrap_err();
            assert_eq!(refused, Refusal::Unknown { status });
            assert_eq!(refused.number(), status);
        }
    }
}
