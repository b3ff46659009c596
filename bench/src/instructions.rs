//! Instructions of the rows' calls, counted by valgrind: a measure that other work on the machine does not disturb. A
//! count is the difference of two runs, divided by the calls between them; the loop around a call is in it.

use std::io::ErrorKind;
use std::process::{Command, Output};

use crate::rows::{PerSide, Row, Side, SIDES};

/// Calls of the two runs.
const FEW: u64 = 4_000;
const MANY: u64 = 24_000;

/// The counts of each of these rows, or none where valgrind is not installed.
pub fn count(rows: &[Row]) -> Option<Vec<PerSide>> {
    is_installed().then(|| rows.iter().map(count_row).collect())
}

fn is_installed() -> bool {
    match Command::new("valgrind").arg("--version").output() {
        Err(error) if error.kind() == ErrorKind::NotFound => false,
        given => given.expect("valgrind can be run").status.success(),
    }
}

fn count_row(row: &Row) -> PerSide {
    let each = |side| (total(row, side, MANY) - total(row, side, FEW)) / (MANY - FEW) as f64;
    let counts: Vec<f64> = SIDES.iter().map(each).collect();
    PerSide::from_line(&counts)
}

/// Instructions of a whole run.
fn total(row: &Row, side: &Side, calls: u64) -> f64 {
    let program = std::env::current_exe().expect("this program has a path");
    let Output { status, stderr, .. } = Command::new("valgrind")
        .args(["--tool=callgrind", "--callgrind-out-file=/dev/null"])
        .arg(program)
        .args(["count", row.name, side.name, &calls.to_string()])
        .output()
        .expect("valgrind can be run");
    let text = String::from_utf8_lossy(&stderr);
    assert!(status.success(), "a run under valgrind failed:\n{text}");
    collected(&text).expect("callgrind tells what it collected")
}

/// The number of a line `==1== Collected : 123`.
fn collected(text: &str) -> Option<f64> {
    let line = text.lines().find(|line| line.contains("Collected"))?;
    line.split_whitespace().last()?.parse().ok()
}

#[cfg(test)]
mod tests {
    use super::*;

    #[test]
    fn the_collected_instructions_are_found() {
        let text = "==7== Events    : Ir\n==7== Collected : 1234567\n==7==\n==7== I   refs:      1,234,567\n";
        assert_eq!(collected(text), Some(1_234_567.0));
    }

    #[test]
    fn other_texts_tell_no_number() {
        assert_eq!(collected("==7== Events    : Ir\n"), None);
        assert_eq!(collected("==7== Collected : many\n"), None);
    }
}
