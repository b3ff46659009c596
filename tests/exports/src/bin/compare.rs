//! `compare FIRST_SEED LISTS COUNT` runs lists of COUNT calls on the exported functions and on the
//! second implementation. The last line is `N passed, M failed`; a failing seed is printed.

use std::process::exit;

use exports::list;
use exports::tally::Tally;
use reference::arguments;

const USAGE: &str = "compare FIRST_SEED LISTS COUNT";

fn main() {
    let [first, lists, count] = arguments::numbers(USAGE);
    if lists == 0 {
        arguments::leave(USAGE);
    }
    let failed = list::run_all(first, lists, count, &mut Tally::default());
    println!("{} passed, {failed} failed", lists - failed);
    exit(i32::from(failed > 0));
}
