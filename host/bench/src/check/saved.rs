//! The rows of one build in a file: a line that names the fields, then a line each. Fields are
//! separated by tabs.

use std::path::Path;

use super::compiled;
use super::fault::Fault;
use super::file;
use super::measure::{Measured, Pair};
use super::rows::{Row, ASKED};
use crate::plain::Kind;

const FIELDS: [&str; 9] = [
    "page_bytes",
    "hash",
    "image_bytes",
    "samples",
    "library_minimum_seconds",
    "rust_minimum_seconds",
    "library_median_seconds",
    "rust_median_seconds",
    "rust_build",
];

/// What one build's run has saved.
#[derive(Debug, PartialEq)]
pub struct Saved {
    /// The file's name without its ending.
    pub name: String,
    pub rows: Vec<Row>,
    /// How the Rust side was compiled.
    pub build: String,
}

fn line(row: &Row, build: &str) -> String {
    let Measured { samples, minimum, median } = row.measured;
    let fields = [
        row.page_bytes.to_string(),
        row.kind.name().to_string(),
        row.image_bytes.to_string(),
        samples.to_string(),
        minimum.library.to_string(),
        minimum.plain.to_string(),
        median.library.to_string(),
        median.plain.to_string(),
        build.to_string(),
    ];
    fields.join("\t")
}

fn text(rows: &[Row], build: &str) -> String {
    let lines = rows.iter().map(|row| line(row, build));
    let all = std::iter::once(FIELDS.join("\t")).chain(lines);
    all.map(|line| line + "\n").collect()
}

pub fn write(path: &Path, rows: &[Row]) -> Result<(), Fault> {
    file::write(path, &text(rows, &compiled::rust()))
}

/// A number above 0.
fn seconds(field: &str) -> Option<f64> {
    field.parse().ok().filter(|seconds: &f64| seconds.is_finite() && *seconds > 0.0)
}

fn pair(library: &str, plain: &str) -> Option<Pair> {
    Some(Pair { library: seconds(library)?, plain: seconds(plain)? })
}

/// A line's row and build.
fn row(line: &str) -> Option<(Row, &str)> {
    let fields: [&str; FIELDS.len()] = line.split('\t').collect::<Vec<_>>().try_into().ok()?;
    let [page_bytes, hash, image_bytes, samples, times @ .., build] = fields;
    let measured = Measured {
        samples: samples.parse().ok()?,
        minimum: pair(times[0], times[1])?,
        median: pair(times[2], times[3])?,
    };
    let kind = Kind::ALL.into_iter().find(|kind| kind.name() == hash)?;
    let (page_bytes, image_bytes) = (page_bytes.parse().ok()?, image_bytes.parse().ok()?);
    Some((Row { kind, page_bytes, image_bytes, measured }, build))
}

/// The rows that are asked for, in their order, and the build of all.
fn rows(text: &str) -> Option<(Vec<Row>, String)> {
    let lines = text.strip_prefix(&FIELDS.join("\t"))?.strip_prefix('\n')?.lines();
    let (rows, builds): (Vec<Row>, Vec<&str>) =
        lines.map(row).collect::<Option<Vec<_>>>()?.into_iter().unzip();
    let asked = rows.iter().map(|row| (row.kind, row.page_bytes));
    if !asked.eq(ASKED.map(|(kind, shift)| (kind, 1 << shift))) {
        return None;
    }
    Some((rows, builds[0].to_string()))
}

pub fn read(path: &Path) -> Result<Saved, Fault> {
    let text = file::read(path)?;
    let name = path.file_stem().unwrap_or_default().to_string_lossy().into_owned();
    match rows(&text) {
        Some((rows, build)) => Ok(Saved { name, rows, build }),
        None => Err(Fault::input(format!("{} is not what --save writes", path.display()))),
    }
}

#[cfg(test)]
mod tests {
    use super::*;

    fn some() -> Vec<Row> {
        let minimum = Pair { library: 0.1 + 0.2, plain: 0.7 };
        let median = Pair { library: 1.0 / 3.0, plain: 0.8 };
        let measured = Measured { samples: 9, minimum, median };
        let row =
            |(kind, shift)| Row { kind, page_bytes: 1usize << shift, image_bytes: 77, measured };
        ASKED.map(row).to_vec()
    }

    #[test]
    fn what_is_written_is_read() {
        let build = "rustc 1, RUSTFLAGS -C x=y".to_string();
        assert_eq!(rows(&text(&some(), &build)), Some((some(), build)));
    }

    #[test]
    fn other_files() {
        let good = text(&some(), "build");
        let cut = good.lines().take(4).map(|line| format!("{line}\n")).collect();
        let other_hash = good.replacen("SHA-256", "SHA-384", 1);
        let no_head = good.replacen("page_bytes", "pages", 1);
        let negative = good.replacen("\t0.7\t", "\t-0.7\t", 1);
        for bad in [String::new(), cut, other_hash, no_head, negative] {
            assert_eq!(rows(&bad), None, "{bad}");
        }
    }
}
