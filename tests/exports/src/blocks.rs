//! The places of scopes in the tables: the start and the size of each, and the used bits. No answer
//! tells them, so that they are compared word by word.

use reference::blocks::BLOCK_WORDS;
use reference::calls::{Call, Op};
use reference::state::{State, AREAS, FIRST_SCOPE};

use crate::calls::Request;
use crate::exports::NewState;

/// Where a scope's start and its size stand in the tables: the first two of the eight words of its
/// area.
const START: usize = 0;
const SIZE: usize = 1;
/// Where the used bits begin: block k has bit k mod 64 of word k / 64 there.
const USED_AT: usize = 547;
const USED_WORDS: usize = 16;

/// The tables that an accepted make or remove leaves, by the second implementation's state after it;
/// of another call, none.
pub fn tables_after(before: &NewState, request: Request, state: &State) -> Option<NewState> {
    let Request::Call(Call { op, .. }) = request else {
        return None;
    };
    let (Op::Make { area, .. } | Op::Remove { area }) = op else {
        return None;
    };
    let mut after = before.clone();
    let record = area as usize * 8;
    after.words[record + START] = start_of(state, area);
    after.words[record + SIZE] = state.area(area).size;
    after.words[USED_AT..].copy_from_slice(&used_bits(state));
    Some(after)
}

/// Whether the used bits are those of the made scopes' blocks, and no others.
pub fn same_used(given: &NewState, state: &State) -> bool {
    given.words[USED_AT..] == used_bits(state)
}

/// The first word of a scope in the scratch store; 0 where it is not made.
fn start_of(state: &State, scope: u64) -> u64 {
    if !state.area(scope).made {
        return 0;
    }
    state.blocks_of(scope).start as u64 * BLOCK_WORDS
}

fn used_bits(state: &State) -> [u64; USED_WORDS] {
    let made = (FIRST_SCOPE..AREAS).filter(|&scope| state.area(scope).made);
    let mut bits = [0; USED_WORDS];
    for block in made.flat_map(|scope| state.blocks_of(scope)) {
        bits[block / 64] |= 1 << (block % 64);
    }
    bits
}

/// How many blocks each run of free ones has.
pub fn free_runs(state: &State) -> Vec<u64> {
    let runs = state.used_blocks.split(|&used| used);
    let lengths = runs.map(|run| run.len() as u64);
    lengths.filter(|&blocks| blocks > 0).collect()
}
