//! The plot: time against states, a panel for each kind of machine and each operation.

use crate::machines::Kind;
use crate::report::Row;
use crate::subject::{Operation, Side};
use std::fmt::Write;

const WIDTH: f64 = 300.0;
const HEIGHT: f64 = 230.0;
const LEFT: f64 = 62.0;
const TOP: f64 = 66.0;
const ACROSS: f64 = 372.0;
const DOWN: f64 = 306.0;
/// The letters that are drawn: the fewest and the most.
const DRAWN: [usize; 2] = [2, 12];
const COLOURS: [[&str; 2]; 2] = [["#74a9cf", "#045a8d"], ["#fd8d3c", "#a63603"]];
const STATES: f64 = 48.0;

/// A panel's place and its range of powers of ten, in microseconds.
struct Panel {
    left: f64,
    top: f64,
    low: f64,
    high: f64,
}

impl Panel {
    fn x(&self, n: f64) -> f64 {
        self.left + WIDTH * n / STATES
    }

    fn y(&self, microseconds: f64) -> f64 {
        let part = (microseconds.log10() - self.low) / (self.high - self.low);
        self.top + HEIGHT * (1.0 - part)
    }
}

pub fn plot(rows: &[Row]) -> String {
    let (width, height) = (LEFT + 3.0 * ACROSS, TOP + 2.0 * DOWN);
    let mut svg = format!(
        "<svg xmlns=\"http://www.w3.org/2000/svg\" viewBox=\"0 0 {width} {height}\" width=\"{width}\" height=\"{height}\" font-family=\"sans-serif\" font-size=\"12\">\n\
         <rect width=\"{width}\" height=\"{height}\" fill=\"white\"/>\n"
    );
    legend(&mut svg);
    for (across, operation) in Operation::ALL.into_iter().enumerate() {
        let (low, high) = range(rows, across);
        for (down, kind) in Kind::ALL.into_iter().enumerate() {
            let panel = Panel {
                left: LEFT + across as f64 * ACROSS,
                top: TOP + down as f64 * DOWN,
                low,
                high,
            };
            axes(
                &mut svg,
                &panel,
                &format!("{}, {} machines", operation.name(), kind.name()),
            );
            for (side, colours) in COLOURS.iter().enumerate() {
                for (k, colour) in DRAWN.into_iter().zip(colours) {
                    let of_line = rows.iter().filter(|row| row.kind == kind && row.k == k);
                    let points: Vec<(f64, f64)> = of_line
                        .map(|row| (row.n as f64, row.nanoseconds[across][side] / 1e3))
                        .map(|(n, time)| (panel.x(n), panel.y(time)))
                        .collect();
                    line(&mut svg, &points, colour, side == 1);
                }
            }
        }
    }
    svg.push_str("</svg>\n");
    svg
}

/// The powers of ten around all times of an operation, so that both kinds have one scale.
fn range(rows: &[Row], operation: usize) -> (f64, f64) {
    let powers = rows
        .iter()
        .filter(|row| DRAWN.contains(&row.k))
        .flat_map(|row| row.nanoseconds[operation])
        .map(|nanoseconds| (nanoseconds / 1e3).log10());
    let (low, high) = powers.fold((f64::MAX, f64::MIN), |(low, high), power| {
        (low.min(power), high.max(power))
    });
    (low.floor(), high.ceil())
}

fn legend(svg: &mut String) {
    let mut x = LEFT;
    for (side, colours) in Side::ALL.into_iter().zip(COLOURS) {
        for (k, colour) in DRAWN.into_iter().zip(colours) {
            line(
                svg,
                &[(x, 20.0), (x + 40.0, 20.0)],
                colour,
                side == Side::Second,
            );
            text(
                svg,
                x + 48.0,
                24.0,
                "start",
                &format!("{}, {k} letters", side.name()),
            );
            x += 175.0;
        }
    }
    text(
        svg,
        x,
        24.0,
        "start",
        "time of one call, against the states of the machine",
    );
}

fn axes(svg: &mut String, panel: &Panel, title: &str) {
    let (left, top) = (panel.left, panel.top);
    let bottom = top + HEIGHT;
    text(svg, left + WIDTH / 2.0, top - 10.0, "middle", title);
    text(svg, left + WIDTH / 2.0, bottom + 34.0, "middle", "states");
    let mut power = panel.low;
    while power <= panel.high {
        let y = panel.y(10f64.powf(power));
        let _ = writeln!(svg, "<path d=\"M{left} {y:.1}h{WIDTH}\" stroke=\"#ddd\"/>");
        text(svg, left - 6.0, y + 4.0, "end", &microseconds(power));
        power += 1.0;
    }
    for n in [0.0, 8.0, 16.0, 24.0, 32.0, 40.0, 48.0] {
        let x = panel.x(n);
        let _ = writeln!(svg, "<path d=\"M{x:.1} {bottom}v5\" stroke=\"black\"/>");
        text(svg, x, bottom + 18.0, "middle", &format!("{n}"));
    }
    let _ = writeln!(
        svg,
        "<rect x=\"{left}\" y=\"{top}\" width=\"{WIDTH}\" height=\"{HEIGHT}\" fill=\"none\" stroke=\"black\"/>"
    );
}

/// A power of ten of microseconds, in the unit that reads best.
fn microseconds(power: f64) -> String {
    match power as i32 {
        ..=-1 => format!("{} ns", 10f64.powf(power + 3.0).round()),
        0..=2 => format!("{} µs", 10f64.powf(power).round()),
        _ => format!("{} ms", 10f64.powf(power - 3.0).round()),
    }
}

fn line(svg: &mut String, points: &[(f64, f64)], colour: &str, dashed: bool) {
    let dashes = if dashed {
        " stroke-dasharray=\"6 4\""
    } else {
        ""
    };
    let places: Vec<String> = points
        .iter()
        .map(|(x, y)| format!("{x:.1},{y:.1}"))
        .collect();
    let _ = writeln!(
        svg,
        "<polyline points=\"{}\" fill=\"none\" stroke=\"{colour}\" stroke-width=\"2\"{dashes}/>",
        places.join(" ")
    );
    for (x, y) in points {
        let _ = writeln!(
            svg,
            "<circle cx=\"{x:.1}\" cy=\"{y:.1}\" r=\"2.5\" fill=\"{colour}\"/>"
        );
    }
}

fn text(svg: &mut String, x: f64, y: f64, anchor: &str, words: &str) {
    let _ = writeln!(
        svg,
        "<text x=\"{x:.1}\" y=\"{y:.1}\" text-anchor=\"{anchor}\">{words}</text>"
    );
}
