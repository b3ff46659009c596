//! Times loops of calls. All loops are run by turns, in many short runs, and the best run of each
//! counts, so that other work on the machine disturbs little and all of them alike.

use std::time::Instant;

/// Rounds over all loops, and calls of a loop in a round: of a short call, and of one that may go over all blocks.
const ROUNDS: usize = 1_500;
const MANY: u64 = 4_000;
const FEW: u64 = 400;

/// A loop that makes a number of calls.
pub type Loop = Box<dyn FnMut(u64)>;

/// Loops that are compared, each with as many calls in a round.
pub struct Line {
    loops: Vec<Loop>,
    calls: u64,
}

impl Line {
    pub fn of_short_calls(loops: Vec<Loop>) -> Line {
        Line { loops, calls: MANY }
    }

    pub fn of_long_calls(loops: Vec<Loop>) -> Line {
        Line { loops, calls: FEW }
    }

    /// Nanoseconds for a call of each loop, where they are less than the best so far.
    fn run(&mut self, best: &mut [f64]) {
        for (run, best) in self.loops.iter_mut().zip(best) {
            *best = best.min(nanoseconds(run, self.calls));
        }
    }
}

/// Nanoseconds for a call, the best run of each loop, in the lines in which the loops stand.
pub fn best(mut lines: Vec<Line>) -> Vec<Vec<f64>> {
    let unmeasured = |line: &Line| vec![f64::MAX; line.loops.len()];
    let mut best: Vec<Vec<f64>> = lines.iter().map(unmeasured).collect();
    for _ in 0..ROUNDS {
        for (line, best) in lines.iter_mut().zip(&mut best) {
            line.run(best);
        }
    }
    best
}

/// Nanoseconds for a call in one short run.
fn nanoseconds(run: &mut Loop, calls: u64) -> f64 {
    let start = Instant::now();
    run(calls);
    start.elapsed().as_nanos() as f64 / calls as f64
}
