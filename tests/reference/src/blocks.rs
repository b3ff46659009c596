//! "Scratch is now handed out in whole blocks of 16 words ... from a vector of used bits".

/// "whole blocks of 16 words"
pub const BLOCK_WORDS: u64 = 16;

/// How many blocks hold a size, of any 64 bits: nothing is added to it.
pub fn blocks_for(size: u64) -> u64 {
    size.div_ceil(BLOCK_WORDS)
}

/// The start of "the lowest run of adjacent clear bits" of a length above 0: each start in order,
/// each bit of its run.
pub fn lowest_run(used: &[bool], length: u64) -> Option<u64> {
    let mut runs = used.windows(length as usize);
    let start = runs.position(|run| run.iter().all(|&used| !used))?;
    Some(start as u64)
}
