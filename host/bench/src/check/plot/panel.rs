//! One panel: axes, grid, labels and both lines.

use super::scale::Scale;
use super::{stroke, text, Line, LINES};
use crate::check::growth::Series;

pub const WIDTH: f64 = 430.0;
pub const HEIGHT: f64 = 370.0;
/// Room for labels about the axes.
pub const LEFT: f64 = 70.0;
const RIGHT: f64 = 30.0;
const TOP: f64 = 30.0;
const BOTTOM: f64 = 54.0;

const GRID: &str = "#dddddd";
const FRAME: &str = "#666666";

/// Where the axes are.
struct Frame {
    left: f64,
    right: f64,
    top: f64,
    bottom: f64,
}

impl Frame {
    fn rectangle(&self) -> String {
        let (left, top) = (self.left, self.top);
        let (width, height) = (self.right - left, self.bottom - top);
        format!(
            "<rect x=\"{left:.1}\" y=\"{top:.1}\" width=\"{width:.1}\" height=\"{height:.1}\" \
             fill=\"none\" stroke=\"{FRAME}\"/>\n"
        )
    }

    fn middle(&self) -> (f64, f64) {
        ((self.left + self.right) / 2.0, (self.top + self.bottom) / 2.0)
    }

    fn columns(&self, scale: &Scale) -> String {
        let column = |at, label: &str| {
            let line = format!(
                "<path d=\"M{at:.1} {:.1}V{:.1}\" stroke=\"{GRID}\"/>\n",
                self.top, self.bottom
            );
            line + &text(at, self.bottom + 17.0, "middle", label)
        };
        scale.ticks().iter().map(|tick| column(tick.at, &tick.label)).collect()
    }

    fn rows(&self, scale: &Scale) -> String {
        let row = |at, label: &str| {
            let line = format!(
                "<path d=\"M{:.1} {at:.1}H{:.1}\" stroke=\"{GRID}\"/>\n",
                self.left, self.right
            );
            line + &text(self.left - 6.0, at + 4.0, "end", label)
        };
        scale.ticks().iter().map(|tick| row(tick.at, &tick.label)).collect()
    }

    /// The title above, the axes' names beside them.
    fn names(&self, series: &Series) -> String {
        let (x, y) = self.middle();
        let across = text(x, self.bottom + 38.0, "middle", series.axis);
        let up = text(0.0, 0.0, "middle", &format!("time of a call, {}", series.unit.name));
        let left = self.left - LEFT + 16.0;
        let title = text(x, self.top - 10.0, "middle", series.title);
        format!(
            "{across}<g transform=\"translate({left:.1} {y:.1}) rotate(-90)\">\n{up}</g>\n\
             <g font-size=\"13\">\n{title}</g>\n"
        )
    }
}

/// A program's times in the series' unit.
fn times<'a>(series: &'a Series, line: &'a Line) -> impl Iterator<Item = f64> + 'a {
    let unit = series.unit.in_a_second;
    series.timed.iter().map(move |timed| (line.time)(timed.measured.minimum) * unit)
}

fn sizes(series: &Series) -> impl Iterator<Item = f64> + '_ {
    series.sizes.iter().map(|&size| size as f64)
}

fn curve(series: &Series, line: &Line, across: &Scale, up: &Scale) -> String {
    let points: Vec<(f64, f64)> = sizes(series)
        .zip(times(series, line))
        .map(|(size, time)| (across.at(size), up.at(time)))
        .collect();
    let markers = points.iter().map(|&(x, y)| (line.marker)(x, y, line.colour));
    stroke(&points, line.colour) + &markers.collect::<String>()
}

/// The panel whose corner is here.
pub fn draw(series: &Series, x: f64, y: f64) -> String {
    let frame = Frame {
        left: x + LEFT,
        right: x + WIDTH - RIGHT,
        top: y + TOP,
        bottom: y + HEIGHT - BOTTOM,
    };
    let across = Scale::over(sizes(series), frame.left, frame.right);
    let all = LINES.iter().flat_map(|line| times(series, line));
    let up = Scale::over(all, frame.bottom, frame.top);
    let grid = frame.columns(&across) + &frame.rows(&up) + &frame.rectangle();
    let curves = LINES.iter().map(|line| curve(series, line, &across, &up));
    grid + &frame.names(series) + &curves.collect::<String>()
}
