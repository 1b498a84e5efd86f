//! Growth as a drawing in SVG: a panel for each series, both programs by minimum.

mod panel;
mod scale;

use std::path::Path;

use super::fault::Fault;
use super::file;
use super::growth::Series;
use super::measure::Pair;

/// The height of the title, and of the whole.
const HEAD: f64 = 44.0;
const HEIGHT: f64 = HEAD + panel::HEIGHT;
const TITLE: &str =
    "The proved library and a straightforward Rust checker: least time of a call, SHA-256";

/// A program's line.
struct Line {
    name: &'static str,
    colour: &'static str,
    time: fn(Pair) -> f64,
    /// A point at a place.
    marker: fn(f64, f64, &str) -> String,
}

const LINES: [Line; 2] = [
    Line { name: "Rust", colour: "#c2410c", time: |pair| pair.plain, marker: square },
    Line { name: "library", colour: "#1d4ed8", time: |pair| pair.library, marker: circle },
];

fn circle(x: f64, y: f64, colour: &str) -> String {
    format!("<circle cx=\"{x:.1}\" cy=\"{y:.1}\" r=\"3\" fill=\"{colour}\"/>\n")
}

fn square(x: f64, y: f64, colour: &str) -> String {
    let (left, top) = (x - 4.5, y - 4.5);
    format!(
        "<rect x=\"{left:.1}\" y=\"{top:.1}\" width=\"9\" height=\"9\" fill=\"white\" \
         stroke=\"{colour}\" stroke-width=\"1.5\"/>\n"
    )
}

fn stroke(points: &[(f64, f64)], colour: &str) -> String {
    let points: Vec<String> = points.iter().map(|(x, y)| format!("{x:.1},{y:.1}")).collect();
    let points = points.join(" ");
    format!(
        "<polyline points=\"{points}\" fill=\"none\" stroke=\"{colour}\" stroke-width=\"1.5\"/>\n"
    )
}

fn text(x: f64, y: f64, anchor: &str, words: &str) -> String {
    format!("<text x=\"{x:.1}\" y=\"{y:.1}\" text-anchor=\"{anchor}\">{words}</text>\n")
}

/// A line, its marker and its name.
fn legend(line: &Line, x: f64) -> String {
    let y = HEAD / 2.0;
    let key = stroke(&[(x, y), (x + 32.0, y)], line.colour);
    key + &(line.marker)(x + 16.0, y, line.colour) + &text(x + 40.0, y + 4.0, "start", line.name)
}

fn document(growth: &[Series]) -> String {
    let width = panel::WIDTH * growth.len() as f64;
    let mut svg = format!(
        "<svg xmlns=\"http://www.w3.org/2000/svg\" width=\"{width}\" height=\"{HEIGHT}\" \
         viewBox=\"0 0 {width} {HEIGHT}\" font-family=\"sans-serif\" font-size=\"12\" fill=\"#222\">\n\
         <rect width=\"{width}\" height=\"{HEIGHT}\" fill=\"white\"/>\n"
    );
    let title = text(panel::LEFT, HEAD / 2.0 + 5.0, "start", TITLE);
    svg += &format!("<g font-size=\"15\">\n{title}</g>\n");
    for (k, line) in LINES.iter().rev().enumerate() {
        svg += &legend(line, width - 220.0 + 110.0 * k as f64);
    }
    let panels = growth.iter().enumerate();
    svg.extend(panels.map(|(k, series)| panel::draw(series, k as f64 * panel::WIDTH, HEAD)));
    svg + "</svg>\n"
}

pub fn write(path: &Path, growth: &[Series]) -> Result<(), Fault> {
    file::write(path, &document(growth))
}

#[cfg(test)]
mod tests {
    use super::*;
    use crate::check::measure::Measured;
    use crate::check::run::Timed;
    use crate::check::table::MILLISECONDS;

    fn series(sizes: &[usize]) -> Series {
        let timed = |&size: &usize| {
            let pair = Pair { library: size as f64 * 8e-4, plain: size as f64 * 1e-3 };
            let measured = Measured { samples: 1, minimum: pair, median: pair };
            Timed { what: size.to_string(), measured }
        };
        let timed = sizes.iter().map(timed).collect();
        let (title, axis, unit) = ("title", "axis", MILLISECONDS);
        Series { title, axis, unit, sizes: sizes.to_vec(), timed }
    }

    /// Every tag is closed, in order.
    fn balanced(svg: &str) -> bool {
        let mut open = Vec::new();
        for tag in svg.split('<').skip(1) {
            let (tag, _) = tag.split_once('>').expect("a tag ends");
            let name = tag.split(' ').next().unwrap();
            if let Some(closed) = name.strip_prefix('/') {
                if open.pop() != Some(closed) {
                    return false;
                }
            } else if !tag.ends_with('/') {
                open.push(name);
            }
        }
        open.is_empty()
    }

    #[test]
    fn tags_and_points() {
        let svg = document(&[series(&[1, 2, 4, 1000]), series(&[1]), series(&[7, 70])]);
        assert!(balanced(&svg), "{svg}");
        assert!(!svg.contains("NaN") && !svg.contains("inf"), "{svg}");
        // A point for each row, and one in the legend.
        assert_eq!(svg.matches("<circle").count(), 7 + 1);
        assert_eq!(svg.matches("width=\"9\"").count(), 7 + 1);
        assert_eq!(svg.matches("<polyline").count(), 2 * 3 + 2);
    }

    #[test]
    fn tags_that_are_not_balanced() {
        assert!(balanced("<a><b/></a>"));
        assert!(!balanced("<a><b></a></b>"));
        assert!(!balanced("<a>"));
    }
}
