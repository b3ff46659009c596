//! What each status means, in words.

use reference::answer::Refusal;

/// The refusals in the order of their numbers.
const WORDS: &[(Refusal, &str)] = &[
    (
        Refusal::Lengths,
        "the buffers' lengths are not those of set-up",
    ),
    (Refusal::Thread, "thread above 15, or not started"),
    (Refusal::Started, "thread started and not ended"),
    (Refusal::Kind, "kind not 1, 2 or 3"),
    (
        Refusal::Right,
        "the thread's kind (start_helper: the helper's) lacks the right",
    ),
    (
        Refusal::Area,
        "area above 63, or scope not made (make: outside 2 to 63; remove: that, or not made)",
    ),
    (Refusal::Made, "scope already made"),
    (Refusal::Size, "size 0, or no run of free blocks holds it"),
    (Refusal::StackFull, "stack has 32 entries"),
    (Refusal::Parent, "scope open with another parent"),
    (
        Refusal::Entries,
        "exit with an empty stack, or end with entries",
    ),
    (
        Refusal::Room,
        "the object does not fit into the current area",
    ),
    (Refusal::Object, "object null or not live"),
    (Refusal::Index, "slot or data index not below the object's"),
    (
        Refusal::Target,
        "target or loaded word neither null nor live",
    ),
    (
        Refusal::Assignment,
        "the assignment rule forbids the reference",
    ),
    (
        Refusal::GenerationsOut,
        "scope not open, its generation the last one",
    ),
    (Refusal::Frame, "the line is no frame"),
    (
        Refusal::Unwritten,
        "data word that nobody wrote since the object was made",
    ),
    (Refusal::Open, "scope open"),
    (
        Refusal::Table,
        "not 36 digits, a digit other than 0 and 1, or A without U",
    ),
    (Refusal::Running, "a thread is started"),
];

/// The words of a refusal's number, if it is one that is known.
pub fn words(status: u64) -> Option<&'static str> {
    let mut known = WORDS.iter();
    let row = known.find(|&&(refusal, _)| refusal as u64 == status);
    row.map(|&(_, words)| words)
}
