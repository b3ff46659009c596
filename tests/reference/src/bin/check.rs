//! `check SEED COUNT [LISTS]` runs generated lists with every claim of the third demand tried after
//! each call, on the frame reader's sizes and, for odd seeds, on small uneven ones too; each seed's
//! list of frames, and a list with loads between the calls. A claim that fails panics with the seed
//! and the call.

use reference::random::Random;
use reference::trial::{run_list, run_steps, Sizes, FRAME_SIZES};
use reference::{arguments, generator};

const USAGE: &str = "check SEED COUNT [LISTS]";

fn main() {
    let mut words: Vec<String> = std::env::args().skip(1).collect();
    if words.len() == 2 {
        words.push("1".into());
    }
    let numbers = arguments::parse(&words);
    let [first, count, lists] = numbers.unwrap_or_else(|| arguments::leave(USAGE));
    if lists == 0 {
        arguments::leave(USAGE);
    }
    for seed in first..first + lists {
        let list = generator::list(seed, count);
        let steps = generator::steps(seed, count);
        run_list(seed, FRAME_SIZES, &list);
        run_steps(seed, FRAME_SIZES, &steps);
        if seed % 2 == 1 {
            run_list(seed, uneven_sizes(seed), &list);
            run_steps(seed, uneven_sizes(seed), &steps);
        }
    }
    println!("{lists} passed, 0 failed");
}

/// Sizes whose areas share words of the start map.
fn uneven_sizes(seed: u64) -> Sizes {
    let mut random = Random::new(seed ^ 0x5ca1ab1e);
    let heap = random.below(300);
    let immortal = random.below(300);
    let scratch = random.between(300, 3_000);
    (heap, immortal, scratch)
}
