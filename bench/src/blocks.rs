//! A scope that is made and removed, by the number of blocks: those of scratch, those asked for, and those used before.

use crate::machine::{Core, Machine, Plain, Resizable, Tuned};
use crate::measure::{Line, Loop};
use crate::runs::{spread, Times};
use crate::scenes::{Blocks, Used};

/// Every second block can be used as often as there are scopes beside the one that is made and removed.
const SCOPES: u64 = 61;

/// What a search for blocks meets.
#[derive(Clone, Copy)]
pub struct Search {
    /// The blocks of the scratch store.
    pub blocks: u64,
    pub used: Used,
    pub asked: u64,
}

impl Search {
    pub const fn in_empty(blocks: u64, asked: u64) -> Search {
        Search {
            blocks,
            used: Used::Nothing,
            asked,
        }
    }

    /// The first window is looked at as far as its first block, the only one that is used, and then the next window. No
    /// search looks at more blocks than the one for all other blocks.
    const fn behind_first(blocks: u64, asked: u64) -> Search {
        Search {
            blocks,
            used: Used::First,
            asked,
        }
    }

    /// Two blocks are asked for and found only behind those of which every second one is used.
    pub const fn behind_every_second(blocks: u64) -> Search {
        let most = blocks / 2 - 1;
        let count = if most < SCOPES { most } else { SCOPES };
        Search {
            blocks,
            used: Used::EverySecond(count),
            asked: 2,
        }
    }
}

const SEARCHES: [Search; 12] = [
    Search::behind_every_second(16),
    Search::behind_every_second(32),
    Search::behind_every_second(64),
    Search::behind_every_second(128),
    Search::in_empty(1_024, 1),
    Search::in_empty(1_024, 4),
    Search::in_empty(1_024, 16),
    Search::in_empty(1_024, 64),
    Search::in_empty(1_024, 256),
    Search::in_empty(1_024, 1_024),
    Search::behind_first(1_024, 512),
    Search::behind_first(1_024, 1_023),
];

/// A pair of make and remove, nanoseconds.
pub struct Pair {
    pub search: Search,
    pub exported: f64,
    pub tuned: f64,
    pub plain: f64,
}

pub fn lines() -> Vec<Line> {
    let line = |&search: &Search| {
        Line::of_long_calls(vec![
            pair_loop::<Core>(search),
            pair_loop::<Tuned>(search),
            pair_loop::<Plain>(search),
        ])
    };
    SEARCHES.iter().map(line).collect()
}

/// The loop of a search on one side.
pub fn pair_loop<M: Resizable>(search: Search) -> Loop {
    match search.blocks {
        16 => in_scratch::<M::With<256>>(search),
        32 => in_scratch::<M::With<512>>(search),
        64 => in_scratch::<M::With<1_024>>(search),
        128 => in_scratch::<M::With<2_048>>(search),
        256 => in_scratch::<M::With<4_096>>(search),
        1_024 => in_scratch::<M::With<16_384>>(search),
        blocks => unreachable!("no search is in {blocks} blocks"),
    }
}

fn in_scratch<M: Machine + 'static>(search: Search) -> Loop {
    let mut blocks = Blocks::<M>::new(search.used, search.asked);
    Box::new(move |turns| blocks.make_and_remove(turns))
}

/// The middle times of all runs, as `lines` has the sides.
pub fn pairs(runs: &[Times]) -> Vec<Pair> {
    let pair = |(place, &search): (usize, &Search)| {
        let middle = |side: usize| spread(runs, |times| times.pairs[place][side]).middle;
        Pair {
            search,
            exported: middle(0),
            tuned: middle(1),
            plain: middle(2),
        }
    };
    SEARCHES.iter().enumerate().map(pair).collect()
}

#[cfg(test)]
mod tests {
    use super::*;

    #[test]
    fn every_search_finds_its_blocks() {
        for search in SEARCHES {
            pair_loop::<Tuned>(search)(1);
        }
    }
}
