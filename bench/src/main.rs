//! Measures the exported functions beside Rust and writes the measured parts of the report.
//!
//! `bench report FOLDER` writes them; it measures by running `bench times` again and again, and counts instructions
//! by running `bench count` under valgrind. `bench instructions` prints the counts alone, `bench agree` only tries
//! whether the sides answer alike, which is tried before measuring too. `bench count ROW SIDE CALLS` makes the calls
//! of a row on one side and nothing else; `bench rows` and `bench sides` name what it knows.
//!
//! For a quick look, `bench instructions PART` counts, and `bench quick PART` measures once, only the rows in whose
//! names the part stands; `bench pairs` measures once a scope that is made and removed, by blocks.

mod agree;
mod blocks;
mod distances;
mod figures;
mod instructions;
mod machine;
mod measure;
mod plot;
mod report;
mod rows;
mod runs;
mod scenes;
mod spread;

use std::path::Path;

use rows::{Row, ROWS, SIDES};
use runs::Times;

/// Makes the calls of a row on one side and nothing else.
fn count(row: &str, side: &str, calls: &str) -> Option<()> {
    let row = ROWS.iter().find(|known| known.name == row)?;
    let side = SIDES.iter().find(|known| known.name == side)?;
    let calls = calls.parse().ok()?;
    (side.row_loop)(*row)(calls);
    Some(())
}

/// Measures everything and writes each part of the report into a file of the folder.
fn report(folder: &Path) {
    std::fs::create_dir_all(folder).expect("the folder can be made");
    agree::check();
    let runs = runs::repeat();
    let counts = instructions::count(&ROWS);
    let figures = figures::figures(&ROWS, &runs, counts.as_deref());
    let checks = distances::checks(&runs);
    let parts = [
        ("calls.md", report::calls(&figures)),
        (
            "instructions.md",
            report::instructions(&ROWS, counts.as_deref()),
        ),
        (
            "distances.md",
            report::distances(&checks, &distances::rules(&runs)),
        ),
        ("reference-check.svg", plot::svg(&checks)),
        ("pairs.md", report::pairs(&blocks::pairs(&runs))),
    ];
    for (name, part) in parts {
        std::fs::write(folder.join(name), part).expect("the folder can be written");
    }
}

/// Counts the instructions of some rows.
fn instructions(rows: &[Row]) -> String {
    report::instructions(rows, instructions::count(rows).as_deref())
}

/// Measures some rows once.
fn quick(rows: &[Row]) -> String {
    report::calls_table(&figures::figures(rows, &[Times::of_rows(rows)], None))
}

/// Measures the pairs once.
fn pairs() -> String {
    report::pairs(&blocks::pairs(&[Times::of_pairs()]))
}

/// Does what the words ask for, where they do.
fn obey(words: &[&str]) -> Option<()> {
    match *words {
        ["count", row, side, calls] => count(row, side, calls)?,
        ["agree"] => println!("{}", agree::check()),
        ["rows"] => ROWS.iter().for_each(|row| println!("{}", row.name)),
        ["sides"] => SIDES.iter().for_each(|side| println!("{}", side.name)),
        ["times"] => print!("{}", Times::measure().text()),
        ["instructions"] => print!("{}", instructions(&ROWS)),
        ["instructions", part] => print!("{}", instructions(&rows::named(part)?)),
        ["quick", part] => print!("{}", quick(&rows::named(part)?)),
        ["pairs"] => print!("{}", pairs()),
        ["report", folder] => report(Path::new(folder)),
        _ => return None,
    }
    Some(())
}

fn main() {
    let words: Vec<String> = std::env::args().skip(1).collect();
    let words: Vec<&str> = words.iter().map(String::as_str).collect();
    if obey(&words).is_none() {
        eprintln!(
            "usage: bench report FOLDER, bench instructions [PART], bench quick PART, bench pairs, bench agree, \
             bench times, bench rows, bench sides, or bench count ROW SIDE CALLS"
        );
        std::process::exit(2);
    }
}
