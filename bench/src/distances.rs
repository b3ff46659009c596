//! The reference check by nesting distance: whole stores on a stack of 32 scopes, and the rules alone.

use crate::machine::{Core, InLine, Machine, Scan, Walk};
use crate::measure::{Line, Loop};
use crate::runs::{spread, Times};
use crate::scenes::Nest;

/// From the scope itself to the outermost of 32.
const DISTANCES: [u64; 7] = [0, 1, 2, 4, 8, 16, 31];
const DEPTH: u64 = 32;

/// A store at a nesting distance, nanoseconds: the exported one, and plain Rust, all in line, by the three
/// rules.
pub struct Check {
    pub distance: u64,
    pub exported: f64,
    pub display: f64,
    pub walk: f64,
    pub scan: f64,
}

/// The three rules alone at a nesting distance, nanoseconds.
pub struct Rules {
    pub distance: u64,
    pub display: f64,
    pub walk: f64,
    pub scan: f64,
}

pub fn store_lines() -> Vec<Line> {
    let line = |&distance: &u64| {
        Line::of_short_calls(vec![
            store_loop::<Core>(distance),
            store_loop::<InLine>(distance),
            store_loop::<Walk>(distance),
            store_loop::<Scan>(distance),
        ])
    };
    DISTANCES.iter().map(line).collect()
}

fn store_loop<M: Machine + 'static>(distance: u64) -> Loop {
    let mut nest = Nest::<M>::new(DEPTH);
    Box::new(move |calls| nest.store(calls, distance))
}

pub fn rule_lines() -> Vec<Line> {
    let line = |&distance: &u64| {
        Line::of_short_calls(vec![
            rule_loop(distance, in_line::check_by_display),
            rule_loop(distance, in_line::check_by_walk),
            rule_loop(distance, in_line::check_by_scan),
        ])
    };
    DISTANCES.iter().map(line).collect()
}

fn rule_loop(distance: u64, rule: in_line::Rule) -> Loop {
    let nest = Nest::<InLine>::new(DEPTH);
    Box::new(move |calls| nest.check(calls, distance, rule))
}

/// The middle times of all runs, as `store_lines` has the sides.
pub fn checks(runs: &[Times]) -> Vec<Check> {
    let check = |(place, &distance): (usize, &u64)| {
        let middle = |side: usize| spread(runs, |times| times.stores[place][side]).middle;
        Check {
            distance,
            exported: middle(0),
            display: middle(1),
            walk: middle(2),
            scan: middle(3),
        }
    };
    DISTANCES.iter().enumerate().map(check).collect()
}

/// The middle times of all runs, as `rule_lines` has the sides.
pub fn rules(runs: &[Times]) -> Vec<Rules> {
    let rule = |(place, &distance): (usize, &u64)| {
        let middle = |side: usize| spread(runs, |times| times.rules[place][side]).middle;
        Rules {
            distance,
            display: middle(0),
            walk: middle(1),
            scan: middle(2),
        }
    };
    DISTANCES.iter().enumerate().map(rule).collect()
}
