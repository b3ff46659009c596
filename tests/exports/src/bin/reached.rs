//! `reached FIRST_SEED LISTS COUNT` runs the lists of `compare` and prints how often each function
//! gave each status. It ends with status 1 if one that can come did not.

use std::process::exit;

use exports::list;
use exports::tally::Tally;
use reference::arguments;

fn main() {
    let [first, lists, count] = arguments::numbers("reached FIRST_SEED LISTS COUNT");
    let mut tally = Tally::default();
    list::run_all(first, lists, count, &mut tally);
    let missing = tally.report();
    println!("{missing} not reached");
    exit(i32::from(missing > 0));
}
