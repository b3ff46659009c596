//! The measured parts of the report in Markdown: ratios first.

use crate::blocks::Pair;
use crate::distances::{Check, Rules};
use crate::figures::{self, Figure, Ratio, READ};
use crate::rows::{PerSide, Row};
use crate::scenes::Used;
use crate::spread::Spread;

/// The first table, what it shows, and the view beside the read.
pub fn calls(figures: &[Figure]) -> String {
    let marked = figures::marked(figures);
    [
        calls_table(figures),
        figures::verdict(&marked) + "\n",
        figures::vague(&marked) + "\n",
        view_table(figures),
    ]
    .join("\n")
}

pub fn calls_table(figures: &[Figure]) -> String {
    let headings = [
        "call",
        "ratio to tuned",
        "mark",
        "ratio to tuned unchecked",
        "mark",
        "to tuned, least to most",
        "to unchecked, least to most",
        "exported, ns",
        "tuned, ns",
        "unchecked, ns",
        "ratio to plain Rust",
        "ratio to plain Rust in line",
    ];
    table(&headings.map(String::from), figures.iter().map(calls_row))
}

fn calls_row(figure: &Figure) -> [String; 12] {
    let tuned = figure.spread(|run| run.exported / run.tuned);
    let unchecked = figure.spread(|run| run.exported / run.unchecked);
    let middle = |number: fn(&PerSide) -> f64| hundredths(figure.spread(number).middle);
    [
        figure.name.into(),
        hundredths(tuned.middle),
        mark(figure.marks.tuned),
        hundredths(unchecked.middle),
        mark(figure.marks.unchecked),
        range(tuned),
        range(unchecked),
        middle(|run| run.exported),
        middle(|run| run.tuned),
        middle(|run| run.unchecked),
        middle(|run| run.exported / run.plain),
        middle(|run| run.exported / run.in_line),
    ]
}

fn view_table(figures: &[Figure]) -> String {
    let headings = ["side", "view / read", "least to most", "mark"].map(String::from);
    let row = |side: &str, number, mark: String| {
        let Ratio { times, .. } = figures::view_to_read(figures, number);
        [side.into(), hundredths(times.middle), range(times), mark]
    };
    let rows = [
        row("exported", |run| run.exported, mark(READ.most)),
        row("tuned", |run| run.tuned, String::new()),
        row("tuned unchecked", |run| run.unchecked, String::new()),
    ];
    table(&headings, rows.into_iter())
}

/// The counts of each of these rows, in their order.
pub fn instructions(rows: &[Row], counts: Option<&[PerSide]>) -> String {
    let Some(counts) = counts else {
        return "valgrind is not installed here, so that no instructions were counted.\n".into();
    };
    let headings = [
        "call",
        "ratio to tuned",
        "ratio to tuned unchecked",
        "exported",
        "tuned",
        "unchecked",
        "plain Rust",
        "plain Rust in line",
    ];
    let row = |(row, counts): (&Row, &PerSide)| {
        [
            row.name.into(),
            hundredths(counts.exported / counts.tuned),
            hundredths(counts.exported / counts.unchecked),
            whole(counts.exported),
            whole(counts.tuned),
            whole(counts.unchecked),
            whole(counts.plain),
            whole(counts.in_line),
        ]
    };
    table(
        &headings.map(String::from),
        rows.iter().zip(counts).map(row),
    )
}

/// Stores by nesting distance, how flat they are, and the rules alone.
pub fn distances(checks: &[Check], rules: &[Rules]) -> String {
    [
        checks_table(checks),
        flatness(checks) + "\n",
        rules_table(rules),
    ]
    .join("\n")
}

fn checks_table(checks: &[Check]) -> String {
    let headings = [
        "distance",
        "exported",
        "display, plain",
        "walk of parents",
        "scan of stack",
        "exported / display",
        "walk / display",
        "scan / display",
    ];
    let row = |check: &Check| {
        [
            check.distance.to_string(),
            nanoseconds(check.exported),
            nanoseconds(check.display),
            nanoseconds(check.walk),
            nanoseconds(check.scan),
            hundredths(check.exported / check.display),
            hundredths(check.walk / check.display),
            hundredths(check.scan / check.display),
        ]
    };
    table(&headings.map(String::from), checks.iter().map(row))
}

fn rules_table(rules: &[Rules]) -> String {
    let headings = [
        "distance, the check alone",
        "display",
        "walk of parents",
        "scan of stack",
        "walk / display",
        "scan / display",
    ];
    let row = |rule: &Rules| {
        [
            rule.distance.to_string(),
            nanoseconds(rule.display),
            nanoseconds(rule.walk),
            nanoseconds(rule.scan),
            hundredths(rule.walk / rule.display),
            hundredths(rule.scan / rule.display),
        ]
    };
    table(&headings.map(String::from), rules.iter().map(row))
}

/// How far the exported store's time lies apart over distances 1 to 31.
fn flatness(checks: &[Check]) -> String {
    let times = checks.iter().filter(|check| check.distance > 0);
    let Spread { least, most, .. } = Spread::of(times.map(|check| check.exported));
    let percent = (most / least - 1.0) * 100.0;
    format!("From distance 1 to 31 the exported store's times lie within {percent:.1} %.")
}

/// Pairs of make and remove by blocks.
pub fn pairs(pairs: &[Pair]) -> String {
    let headings = [
        "used before",
        "blocks of scratch",
        "blocks asked for",
        "exported",
        "tuned",
        "plain Rust",
        "exported / tuned",
        "exported / plain",
    ];
    let row = |pair: &Pair| {
        [
            used(pair.search.used),
            thousands(pair.search.blocks),
            thousands(pair.search.asked),
            nanoseconds(pair.exported),
            nanoseconds(pair.tuned),
            nanoseconds(pair.plain),
            hundredths(pair.exported / pair.tuned),
            hundredths(pair.exported / pair.plain),
        ]
    };
    table(&headings.map(String::from), pairs.iter().map(row))
}

fn used(used: Used) -> String {
    match used {
        Used::Nothing => "none".into(),
        Used::First => "block 0".into(),
        Used::EverySecond(count) => format!("every second, {count} in all"),
    }
}

fn table<const N: usize>(
    headings: &[String; N],
    rows: impl Iterator<Item = [String; N]>,
) -> String {
    let line = |cells: &[String]| format!("| {} |\n", cells.join(" | "));
    let ruler = format!("|{}\n", "---|".repeat(N));
    let rows: String = rows.map(|cells| line(&cells)).collect();
    line(headings) + &ruler + &rows
}

fn hundredths(number: f64) -> String {
    format!("{number:.2}")
}

/// A mark, with as many digits as it has and one at least.
fn mark(most: f64) -> String {
    format!("{most:?}")
}

fn nanoseconds(time: f64) -> String {
    format!("{time:.2} ns")
}

fn whole(number: f64) -> String {
    format!("{number:.0}")
}

/// A number below a million, its thousands set off.
fn thousands(number: u64) -> String {
    match number / 1_000 {
        0 => number.to_string(),
        thousands => format!("{thousands},{:03}", number % 1_000),
    }
}

fn range(spread: Spread) -> String {
    format!("{:.2} to {:.2}", spread.least, spread.most)
}

#[cfg(test)]
mod tests {
    use super::*;
    use crate::blocks::Search;
    use crate::figures::tests::row;
    use crate::rows::ROWS;

    #[test]
    fn a_table_has_its_headings_a_ruler_and_its_rows() {
        let rows = [["1", "2"], ["3", "4"]].map(|cells| cells.map(String::from));
        assert_eq!(
            table(&["a", "b"].map(String::from), rows.into_iter()),
            "| a | b |\n|---|---|\n| 1 | 2 |\n| 3 | 4 |\n"
        );
    }

    #[test]
    fn a_row_of_calls_leads_with_the_ratios_that_have_marks() {
        let mut figure = row("read", &[9.0, 10.0, 10.5], None);
        figure.runs[1].unchecked = 8.0;
        figure.runs[1].plain = 20.0;
        figure.runs[1].in_line = 16.0;
        let cells = [
            "read",
            "1.00",
            "1.0",
            "1.05",
            "1.05",
            "0.90 to 1.05",
            "0.90 to 1.25",
            "10.00",
            "10.00",
            "10.00",
            "0.90",
            "0.90",
        ];
        assert_eq!(calls_row(&figure), cells);
    }

    #[test]
    fn the_calls_are_told_with_their_verdict() {
        let figures = [row("read", &[10.0], None), row("view", &[12.0], None)];
        let text = calls(&figures);
        assert!(text.contains("\n\nOver the mark 1.0 to tuned: view (1.20).\n"));
        assert!(text.contains("to a read: view (1.20).\n\nOf every row the times tell"));
        assert!(text.contains("| exported | 1.20 | 1.20 to 1.20 | 1.1 |\n| tuned | 1.00 | "));
    }

    #[test]
    fn counts_stand_behind_their_ratios() {
        let mut counts = vec![PerSide::from_line(&[1.0; 5]); ROWS.len()];
        counts[0] = PerSide::from_line(&[105.4, 100.0, 84.0, 164.0, 120.0]);
        let text = instructions(&ROWS, Some(&counts));
        let first = format!(
            "| {} | 1.05 | 1.25 | 105 | 100 | 84 | 164 | 120 |",
            ROWS[0].name
        );
        assert_eq!(text.lines().nth(2), Some(first.as_str()));
        assert_eq!(text.lines().count(), 2 + ROWS.len());
    }

    #[test]
    fn where_none_were_counted_it_says_so() {
        assert!(instructions(&ROWS, None).starts_with("valgrind is not installed"));
    }

    fn check(distance: u64, exported: f64) -> Check {
        Check {
            distance,
            exported,
            display: 10.0,
            walk: 25.0,
            scan: 15.0,
        }
    }

    #[test]
    fn the_store_within_a_scope_does_not_count_as_flat_or_not() {
        let checks = [check(0, 5.0), check(1, 10.0), check(31, 10.5)];
        assert_eq!(
            flatness(&checks),
            "From distance 1 to 31 the exported store's times lie within 5.0 %."
        );
    }

    #[test]
    fn stores_stand_beside_those_by_other_rules() {
        let text = checks_table(&[check(4, 9.0)]);
        let row = "| 4 | 9.00 ns | 10.00 ns | 25.00 ns | 15.00 ns | 0.90 | 2.50 | 1.50 |";
        assert_eq!(text.lines().last(), Some(row));
    }
    #[test]
    fn pairs_stand_behind_what_their_search_meets() {
        let pair = |search| Pair {
            search,
            exported: 11.0,
            tuned: 10.0,
            plain: 22.0,
        };
        let text = pairs(&[
            pair(Search::in_empty(1_024, 16)),
            pair(Search::behind_every_second(32)),
        ]);
        let rows: Vec<&str> = text.lines().skip(2).collect();
        let times = "11.00 ns | 10.00 ns | 22.00 ns | 1.10 | 0.50 |";
        assert_eq!(rows[0], format!("| none | 1,024 | 16 | {times}"));
        let used = "every second, 15 in all";
        assert_eq!(rows[1], format!("| {used} | 32 | 2 | {times}"));
    }
}
