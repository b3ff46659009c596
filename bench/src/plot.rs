//! The reference check by nesting distance as a plot (SVG).

use std::fmt::Write;

use crate::distances::Check;

const WIDTH: f64 = 800.0;
const HEIGHT: f64 = 460.0;
/// The plotted field.
const LEFT: f64 = 70.0;
const RIGHT: f64 = 560.0;
const TOP: f64 = 60.0;
const BOTTOM: f64 = 390.0;
const FARTHEST: f64 = 32.0;

/// A line of the plot.
struct Series {
    name: &'static str,
    colour: &'static str,
    time: fn(&Check) -> f64,
}

const SERIES: [Series; 4] = [
    Series {
        name: "scan of the stack (Rust)",
        colour: "#c0392b",
        time: |check| check.scan,
    },
    Series {
        name: "walk of the parents (Rust)",
        colour: "#d98200",
        time: |check| check.walk,
    },
    Series {
        name: "display (Rust)",
        colour: "#7f8c8d",
        time: |check| check.display,
    },
    Series {
        name: "display (proved, exported)",
        colour: "#1f6fb2",
        time: |check| check.exported,
    },
];

pub fn svg(checks: &[Check]) -> String {
    let highest = scale(checks);
    let mut out = String::new();
    open(&mut out);
    axes(&mut out, checks, highest);
    for (place, series) in SERIES.iter().enumerate() {
        line(&mut out, series, checks, highest);
        legend(&mut out, series, place);
    }
    out.push_str("</svg>\n");
    out
}

/// The top of the upright axis: a multiple of its step above every time.
fn scale(checks: &[Check]) -> f64 {
    let times = SERIES.iter().flat_map(|s| checks.iter().map(s.time));
    let most = times.fold(0.0, f64::max);
    (most / step(most)).ceil() * step(most)
}

/// About six steps, of 1, 2, 5, 10, ..
fn step(most: f64) -> f64 {
    let steps = [1.0, 2.0, 5.0, 10.0, 20.0, 50.0, 100.0];
    let enough = steps.iter().find(|&&step| most / step <= 7.0);
    *enough.unwrap_or(&200.0)
}

fn x(distance: f64) -> f64 {
    LEFT + (RIGHT - LEFT) * distance / FARTHEST
}

fn y(time: f64, highest: f64) -> f64 {
    BOTTOM - (BOTTOM - TOP) * time / highest
}

fn text(out: &mut String, x: f64, y: f64, rest: &str, words: &str) {
    let _ = writeln!(out, "<text x=\"{x:.1}\" y=\"{y:.1}\" {rest}>{words}</text>");
}

fn segment(out: &mut String, from: (f64, f64), to: (f64, f64), stroke: &str) {
    let ((x1, y1), (x2, y2)) = (from, to);
    let _ = writeln!(
        out,
        "<line x1=\"{x1:.1}\" y1=\"{y1:.1}\" x2=\"{x2:.1}\" y2=\"{y2:.1}\" {stroke}/>"
    );
}

fn open(out: &mut String) {
    let _ = writeln!(
        out,
        "<svg xmlns=\"http://www.w3.org/2000/svg\" width=\"{WIDTH}\" height=\"{HEIGHT}\" \
         viewBox=\"0 0 {WIDTH} {HEIGHT}\" font-family=\"sans-serif\" font-size=\"13\" fill=\"#222\">"
    );
    let _ = writeln!(out, "<rect width=\"100%\" height=\"100%\" fill=\"#fff\"/>");
    let title = "A store with its reference check, by nesting distance";
    text(out, LEFT, 32.0, "font-size=\"17\"", title);
}

/// Both axes with their numbers and units, and the grid.
fn axes(out: &mut String, checks: &[Check], highest: f64) {
    let mut time = 0.0;
    while time <= highest {
        let at = y(time, highest);
        segment(out, (LEFT, at), (RIGHT, at), "stroke=\"#ddd\"");
        text(
            out,
            LEFT - 10.0,
            at + 4.5,
            "text-anchor=\"end\"",
            &format!("{time}"),
        );
        time += step(highest);
    }
    for check in checks {
        let at = x(check.distance as f64);
        segment(out, (at, BOTTOM), (at, BOTTOM + 5.0), "stroke=\"#222\"");
        let number = format!("{}", check.distance);
        text(out, at, BOTTOM + 20.0, "text-anchor=\"middle\"", &number);
    }
    segment(out, (LEFT, BOTTOM), (RIGHT, BOTTOM), "stroke=\"#222\"");
    segment(out, (LEFT, TOP), (LEFT, BOTTOM), "stroke=\"#222\"");
    let across = "distance: how many scopes the target's scope stands above the object's";
    let middle = (LEFT + RIGHT) / 2.0;
    text(out, middle, BOTTOM + 45.0, "text-anchor=\"middle\"", across);
    let upright = "text-anchor=\"middle\" transform=\"rotate(-90 24 225)\"";
    text(out, 24.0, 225.0, upright, "time of a store, nanoseconds");
}

fn line(out: &mut String, series: &Series, checks: &[Check], highest: f64) {
    let place = |check: &Check| (x(check.distance as f64), y((series.time)(check), highest));
    let points: Vec<String> = checks
        .iter()
        .map(|check| format!("{:.1},{:.1}", place(check).0, place(check).1))
        .collect();
    let colour = series.colour;
    let _ = writeln!(
        out,
        "<polyline points=\"{}\" fill=\"none\" stroke=\"{colour}\" stroke-width=\"2\"/>",
        points.join(" ")
    );
    for check in checks {
        let (x, y) = place(check);
        let _ = writeln!(
            out,
            "<circle cx=\"{x:.1}\" cy=\"{y:.1}\" r=\"3.5\" fill=\"{colour}\"/>"
        );
    }
}

fn legend(out: &mut String, series: &Series, place: usize) {
    let (left, at) = (RIGHT + 20.0, TOP + 12.0 + 24.0 * place as f64);
    let stroke = format!("stroke=\"{}\" stroke-width=\"3\"", series.colour);
    segment(out, (left, at), (left + 18.0, at), &stroke);
    text(out, left + 25.0, at + 4.5, "font-size=\"12\"", series.name);
}

#[cfg(test)]
mod tests {
    use super::*;

    fn check(distance: u64, time: f64) -> Check {
        Check {
            distance,
            exported: time,
            display: time / 2.0,
            walk: time / 2.0,
            scan: time / 2.0,
        }
    }

    #[test]
    fn the_axis_ends_at_a_step_above_every_time() {
        let tops = [6.0, 9.5, 41.0, 52.0].map(|time| scale(&[check(1, time)]));
        assert_eq!(tops, [6.0, 10.0, 50.0, 60.0]);
    }

    #[test]
    fn every_time_is_a_point_at_its_place() {
        let plot = svg(&[check(0, 5.0), check(32, 10.0)]);
        // The exported store's line runs from the middle of the left edge to the upper right corner.
        assert!(plot.contains("points=\"70.0,225.0 560.0,60.0\""));
        assert_eq!(plot.matches("<circle").count(), SERIES.len() * 2);
        assert_eq!(plot.matches("<polyline").count(), SERIES.len());
    }
}
