//! What the runs say of the rows: ratios, the marks that they are to reach, and whether they do.

use crate::rows::{Marks, PerSide, Row};
use crate::runs::Times;
use crate::spread::Spread;

/// Ratios of the runs that lie further apart than this are vague.
const WIDE: f64 = 0.05;

/// The most that a ratio may be.
#[derive(Clone, Copy, Debug, PartialEq)]
pub struct Mark {
    pub to: &'static str,
    pub most: f64,
}

/// Of a view to a read on the same side.
pub const READ: Mark = mark("a read", 1.1);

const fn mark(to: &'static str, most: f64) -> Mark {
    Mark { to, most }
}

/// A row: nanoseconds on each side, for each run, and instructions, where they were counted.
pub struct Figure {
    pub name: &'static str,
    pub marks: Marks,
    pub runs: Vec<PerSide>,
    pub instructions: Option<PerSide>,
}

/// The rows of all runs, with the instructions of each.
pub fn figures(rows: &[Row], runs: &[Times], instructions: Option<&[PerSide]>) -> Vec<Figure> {
    let figure = |(place, row): (usize, &Row)| Figure {
        name: row.name,
        marks: row.marks(),
        runs: of_row(runs, place),
        instructions: instructions.map(|counts| counts[place]),
    };
    rows.iter().enumerate().map(figure).collect()
}

fn of_row(runs: &[Times], place: usize) -> Vec<PerSide> {
    let sides = |times: &Times| PerSide::from_line(&times.rows[place]);
    runs.iter().map(sides).collect()
}

impl Figure {
    pub fn spread(&self, number: impl Fn(&PerSide) -> f64) -> Spread {
        Spread::of(self.runs.iter().map(number))
    }

    fn ratios(&self) -> [Ratio; 2] {
        let Marks { tuned, unchecked } = self.marks;
        [
            self.ratio(mark("tuned", tuned), |sides| sides.exported / sides.tuned),
            self.ratio(mark("tuned unchecked", unchecked), |sides| {
                sides.exported / sides.unchecked
            }),
        ]
    }

    fn ratio(&self, mark: Mark, of: fn(&PerSide) -> f64) -> Ratio {
        Ratio {
            row: self.name,
            mark,
            times: self.spread(of),
            instructions: self.instructions.as_ref().map(of),
        }
    }
}

/// A ratio that has a mark: of the times of each run, and of the instructions, where they were counted.
pub struct Ratio {
    row: &'static str,
    mark: Mark,
    pub times: Spread,
    instructions: Option<f64>,
}

/// Every ratio that has a mark.
pub fn marked(figures: &[Figure]) -> Vec<Ratio> {
    let mut ratios: Vec<Ratio> = figures.iter().flat_map(Figure::ratios).collect();
    ratios.push(view_to_read(figures, |sides| sides.exported));
    ratios
}

/// The view over the read on one side, run by run.
pub fn view_to_read(figures: &[Figure], side: fn(&PerSide) -> f64) -> Ratio {
    let [view, read] = ["view", "read"].map(|name| row(figures, name));
    let over = |(view, read): (&PerSide, &PerSide)| side(view) / side(read);
    let counts = view.instructions.as_ref().zip(read.instructions.as_ref());
    Ratio {
        row: view.name,
        mark: READ,
        times: Spread::of(view.runs.iter().zip(&read.runs).map(over)),
        instructions: counts.map(over),
    }
}

fn row<'a>(figures: &'a [Figure], name: &str) -> &'a Figure {
    let named = figures.iter().find(|figure| figure.name == name);
    named.expect("the row is measured")
}

impl Ratio {
    /// Whether the times lie far apart and on both sides of the mark, so that they cannot tell.
    fn is_vague(&self) -> bool {
        let Spread { least, most, .. } = self.times;
        let wide = shown(self.times.width()) > WIDE;
        wide && shown(least) <= self.mark.most && shown(most) > self.mark.most
    }

    /// The ratio that counts, and how it was told.
    fn figure(&self) -> (f64, &'static str) {
        match self.instructions {
            Some(ratio) if self.is_vague() => (ratio, " by instructions"),
            _ => (self.times.middle, ""),
        }
    }

    fn is_over(&self) -> bool {
        shown(self.figure().0) > self.mark.most
    }
}

/// A number as the tables show it.
fn shown(number: f64) -> f64 {
    (number * 100.0).round() / 100.0
}

/// Which ratios are over their marks, a sentence for each mark that is passed.
pub fn verdict(ratios: &[Ratio]) -> String {
    let passed: Vec<String> = marks(ratios)
        .into_iter()
        .filter_map(|mark| over(ratios, mark))
        .collect();
    if passed.is_empty() {
        return "Every row is within its marks.".into();
    }
    passed.join("\n")
}

/// Each mark of the ratios once, in their order.
fn marks(ratios: &[Ratio]) -> Vec<Mark> {
    let mut marks = Vec::new();
    for Ratio { mark, .. } in ratios {
        if !marks.contains(mark) {
            marks.push(*mark);
        }
    }
    marks
}

fn over(ratios: &[Ratio], mark: Mark) -> Option<String> {
    let over = ratios
        .iter()
        .filter(|ratio| ratio.mark == mark && ratio.is_over());
    let told = listed(over, |ratio| {
        let (figure, by) = ratio.figure();
        format!("{} ({figure:.2}{by})", ratio.row)
    })?;
    Some(format!(
        "Over the mark {:?} to {}: {told}.",
        mark.most, mark.to
    ))
}

/// Which ratios the times do not tell.
pub fn vague(ratios: &[Ratio]) -> String {
    let vague = ratios.iter().filter(|ratio| ratio.is_vague());
    let told = listed(vague, |ratio| {
        let Spread { least, most, .. } = ratio.times;
        format!(
            "{} to {} ({least:.2} to {most:.2})",
            ratio.row, ratio.mark.to
        )
    });
    match told {
        None => "Of every row the times tell on which side of its marks it is.".into(),
        Some(rows) => format!("The times do not tell on which side of the mark these are: {rows}."),
    }
}

/// Some ratios, told one after the other, or none.
fn listed<'a>(
    ratios: impl Iterator<Item = &'a Ratio>,
    told: impl Fn(&Ratio) -> String,
) -> Option<String> {
    let told: Vec<String> = ratios.map(told).collect();
    (!told.is_empty()).then(|| told.join("; "))
}

#[cfg(test)]
pub mod tests {
    use super::*;
    use crate::rows::{MARKS, ROWS};

    /// A row in which all sides but the exported one take 10 ns and 100 instructions.
    pub fn row(name: &'static str, exported: &[f64], instructions: Option<f64>) -> Figure {
        let sides = |exported, other| PerSide::from_line(&[exported, other, other, other, other]);
        Figure {
            name,
            marks: MARKS,
            runs: exported.iter().map(|&time| sides(time, 10.0)).collect(),
            instructions: instructions.map(|count| sides(count, 100.0)),
        }
    }

    fn told(figures: &[Figure]) -> (String, String) {
        let ratios: Vec<Ratio> = figures.iter().flat_map(Figure::ratios).collect();
        (verdict(&ratios), vague(&ratios))
    }

    const NONE_OVER: &str = "Every row is within its marks.";
    const NONE_VAGUE: &str = "Of every row the times tell on which side of its marks it is.";

    #[test]
    fn a_row_on_its_marks_is_within_them() {
        let (over, vague) = told(&[row("read", &[9.8, 10.0, 10.2], None)]);
        assert_eq!((over.as_str(), vague.as_str()), (NONE_OVER, NONE_VAGUE));
    }

    #[test]
    fn a_row_is_judged_as_it_is_shown() {
        assert_eq!(told(&[row("read", &[10.04], None)]).0, NONE_OVER);
        let over = "Over the mark 1.0 to tuned: read (1.01).";
        assert_eq!(told(&[row("read", &[10.06], None)]).0, over);
    }

    #[test]
    fn each_mark_has_a_sentence() {
        let figures = [("read", 10.6), ("write", 9.0), ("exit, depth 1", 11.0)];
        assert_eq!(
            told(&figures.map(|(name, time)| row(name, &[time], None))).0,
            "Over the mark 1.0 to tuned: read (1.06); exit, depth 1 (1.10).\n\
             Over the mark 1.05 to tuned unchecked: read (1.06); exit, depth 1 (1.10)."
        );
    }

    #[test]
    fn a_row_is_held_against_its_own_marks() {
        let turn = |time| Figure {
            marks: Marks {
                tuned: 1.1,
                unchecked: 1.15,
            },
            ..row("a turn", &[time], None)
        };
        assert_eq!(told(&[turn(11.0)]).0, NONE_OVER);
        assert_eq!(
            told(&[row("read", &[10.3], None), turn(11.3)]).0,
            "Over the mark 1.0 to tuned: read (1.03).\n\
             Over the mark 1.1 to tuned: a turn (1.13)."
        );
    }

    #[test]
    fn the_middle_of_the_runs_counts() {
        assert_eq!(told(&[row("read", &[10.3, 9.9, 9.8], None)]).0, NONE_OVER);
    }

    #[test]
    fn instructions_count_where_the_times_do_not_tell() {
        let (over, vague) = told(&[row("exit", &[9.5, 9.6, 11.0], Some(103.0))]);
        assert_eq!(
            over,
            "Over the mark 1.0 to tuned: exit (1.03 by instructions)."
        );
        assert_eq!(
            vague,
            "The times do not tell on which side of the mark these are: \
             exit to tuned (0.95 to 1.10); exit to tuned unchecked (0.95 to 1.10)."
        );
    }

    #[test]
    fn where_none_were_counted_the_times_count() {
        let (over, vague) = told(&[row("exit", &[9.5, 10.1, 11.0], None)]);
        assert_eq!(over, "Over the mark 1.0 to tuned: exit (1.01).");
        assert_ne!(vague, NONE_VAGUE);
    }

    #[test]
    fn instructions_do_not_count_where_the_times_are_close() {
        let close = told(&[row("exit", &[9.8, 9.9, 10.3], Some(150.0))]);
        assert_eq!(
            (close.0.as_str(), close.1.as_str()),
            (NONE_OVER, NONE_VAGUE)
        );
    }

    #[test]
    fn instructions_do_not_count_where_all_times_are_on_one_side() {
        let fast = told(&[row("exit", &[8.0, 9.0, 10.0], Some(150.0))]);
        assert_eq!((fast.0.as_str(), fast.1.as_str()), (NONE_OVER, NONE_VAGUE));
        let slow = told(&[row("exit", &[11.0, 12.0, 15.0], Some(90.0))]);
        assert!(slow
            .0
            .starts_with("Over the mark 1.0 to tuned: exit (1.20).\n"));
        assert_eq!(slow.1, NONE_VAGUE);
    }

    #[test]
    fn a_view_is_held_against_the_read_of_the_same_run() {
        let figures = [
            row("read", &[10.0, 20.0, 40.0], Some(100.0)),
            row("view", &[13.0, 22.0, 42.0], Some(120.0)),
        ];
        let Ratio { times, .. } = view_to_read(&figures, |sides| sides.exported);
        assert_eq!((times.least, times.middle, times.most), (1.05, 1.1, 1.3));
        let verdict = verdict(&marked(&figures));
        let view = "Over the mark 1.1 to a read: view (1.20 by instructions).";
        assert_eq!(verdict.lines().last(), Some(view));
    }

    #[test]
    fn figures_are_the_rows_of_all_runs() {
        let times = |first: f64| Times {
            rows: (0..ROWS.len())
                .map(|row| vec![first + row as f64; 5])
                .collect(),
            ..Times::default()
        };
        let counts = vec![PerSide::from_line(&[7.0; 5]); ROWS.len()];
        let figures = figures(&ROWS, &[times(10.0), times(20.0)], Some(&counts));
        let (last, place) = (figures.last().expect("a row"), ROWS.len() - 1);
        assert_eq!((figures.len(), last.name), (ROWS.len(), ROWS[place].name));
        let marks = figures.iter().map(|figure| figure.marks);
        assert!(marks.eq(ROWS.iter().map(Row::marks)));
        let exported: Vec<f64> = last.runs.iter().map(|run| run.exported).collect();
        assert_eq!(exported, [10.0, 20.0].map(|first| first + place as f64));
        assert_eq!(last.instructions, Some(counts[0]));
    }
}
