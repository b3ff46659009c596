//! The measurement, repeated in processes of their own: where a process's memory and stack lie moves
//! some times.

use std::process::{Command, Stdio};

use crate::blocks;
use crate::distances;
use crate::measure;
use crate::rows::{self, Row, ROWS};
use crate::spread::Spread;

/// Runs of the whole measurement.
const RUNS: usize = 7;

/// Nanoseconds: a line for each row, distance or search, a number for each side of it.
type Lines = Vec<Vec<f64>>;

/// The times of one process.
#[derive(Clone, Debug, Default, PartialEq)]
pub struct Times {
    /// Of the first table's rows.
    pub rows: Lines,
    /// Of stores by nesting distance.
    pub stores: Lines,
    /// Of the reference check alone, likewise.
    pub rules: Lines,
    /// Of pairs of make and remove by blocks.
    pub pairs: Lines,
}

impl Times {
    /// Of everything.
    pub fn measure() -> Times {
        Times {
            rows: measure::best(rows::lines(&ROWS)),
            stores: measure::best(distances::store_lines()),
            rules: measure::best(distances::rule_lines()),
            pairs: measure::best(blocks::lines()),
        }
    }

    /// Of some rows alone.
    pub fn of_rows(rows: &[Row]) -> Times {
        Times {
            rows: measure::best(rows::lines(rows)),
            ..Times::default()
        }
    }

    /// Of the pairs alone.
    pub fn of_pairs() -> Times {
        Times {
            pairs: measure::best(blocks::lines()),
            ..Times::default()
        }
    }

    /// What `parse` reads: a line of numbers for each line, an empty one between two parts.
    pub fn text(&self) -> String {
        let parts = [&self.rows, &self.stores, &self.rules, &self.pairs];
        parts.map(part).join("\n")
    }

    fn parse(text: &str) -> Option<Times> {
        let mut parts = text.split("\n\n").map(lines);
        let times = Times {
            rows: parts.next()??,
            stores: parts.next()??,
            rules: parts.next()??,
            pairs: parts.next()??,
        };
        parts.next().is_none().then_some(times)
    }
}

fn part(lines: &Lines) -> String {
    let numbers = |line: &Vec<f64>| line.iter().map(f64::to_string).collect::<Vec<_>>();
    let line = |line| numbers(line).join(" ") + "\n";
    lines.iter().map(line).collect()
}

fn lines(text: &str) -> Option<Lines> {
    let line = |line: &str| line.split(' ').map(|word| word.parse().ok()).collect();
    text.lines().map(line).collect()
}

/// Runs this program several times, one after the other, for its times.
pub fn repeat() -> Vec<Times> {
    (0..RUNS).map(|_| run()).collect()
}

fn run() -> Times {
    let program = std::env::current_exe().expect("this program has a path");
    // Why a run failed is seen on standard error.
    let output = Command::new(program)
        .arg("times")
        .stderr(Stdio::inherit())
        .output()
        .expect("this program can be run again");
    assert!(output.status.success(), "a run of the measurement failed");
    let text = String::from_utf8_lossy(&output.stdout);
    Times::parse(&text).expect("a run of the measurement gives its times")
}

/// A time of all runs.
pub fn spread(runs: &[Times], time: impl Fn(&Times) -> f64) -> Spread {
    Spread::of(runs.iter().map(time))
}

#[cfg(test)]
mod tests {
    use super::*;

    #[test]
    fn times_are_read_as_they_are_written() {
        let times = Times {
            rows: vec![vec![1.5, 2.0], vec![0.1, 30.25]],
            stores: vec![vec![4.0]],
            rules: vec![vec![5.0, 6.0, 7.0]],
            pairs: vec![vec![8.0], vec![9.0]],
        };
        let text = "1.5 2\n0.1 30.25\n\n4\n\n5 6 7\n\n8\n9\n";
        assert_eq!(times.text(), text);
        assert_eq!(Times::parse(&times.text()), Some(times));
    }

    #[test]
    fn other_texts_are_no_times() {
        let short = ["", "1 2\n\n3\n", "1\n\n2\n\n3\n"];
        let wrong = ["1\n\n2\n\n3\n\nfour\n", "1\n\n2\n\n3\n\n4\n\n5\n"];
        for text in short.iter().chain(&wrong) {
            assert_eq!(Times::parse(text), None, "{text:?}");
        }
    }
}
