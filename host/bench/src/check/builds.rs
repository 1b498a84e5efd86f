//! The rows of several builds side by side. The same source runs at different speeds in
//! different builds; the least favourable one is held to the limit.

use std::fmt::Write;
use std::path::PathBuf;

use super::fault::Fault;
use super::measure::Measured;
use super::number::MIB;
use super::rows::{verdict, Row, LIMIT};
use super::saved::{read, Saved};
use super::streams::Streams;

/// The column of a build's name.
const NAME: usize = 24;

/// The lowest and the highest of some numbers.
fn range(numbers: impl Iterator<Item = f64>) -> (f64, f64) {
    numbers.fold((f64::MAX, f64::MIN), |(low, high), number| (low.min(number), high.max(number)))
}

/// A line of a row's table.
fn line(name: &str, [minimum, median, speed]: [String; 3]) -> String {
    format!("{name:NAME$}  {minimum:>16}  {median:>16}  {speed:>16}\n")
}

/// Ratio by minimum, ratio by median, and the Rust side's speed, with the decimals that each has.
fn figures(row: &Row) -> [(f64, usize); 3] {
    let Measured { minimum, median, .. } = row.measured;
    [(minimum.ratio(), 3), (median.ratio(), 3), (row.speeds()[1], 1)]
}

/// One figure's range over the builds.
fn spread(rows: &[&Row], figure: usize) -> String {
    let (low, high) = range(rows.iter().map(|row| figures(row)[figure].0));
    let decimals = figures(rows[0])[figure].1;
    format!("{low:.decimals$} to {high:.decimals$}")
}

/// One row: each build, the range, and the least favourable against the limit.
fn table(builds: &[Saved], rows: &[&Row]) -> String {
    let mut text = format!("\n{}\n", rows[0].what());
    let heads = ["ratio, minimum", "ratio, median", "Rust, MB/s"];
    text += &line("build", heads.map(str::to_string));
    for (build, row) in builds.iter().zip(rows) {
        let figures = figures(row).map(|(figure, decimals)| format!("{figure:.decimals$}"));
        text += &line(&build.name, figures);
    }
    text += &line("range", [0, 1, 2].map(|figure| spread(rows, figure)));
    let (_, ratio) = range(rows.iter().map(|row| row.ratio()));
    let verdict = verdict(ratio);
    text + &format!("{:NAME$}  {ratio:16.3}  limit {LIMIT}: {verdict}\n", "least favourable")
}

/// The builds' flags, and the image that all of them checked.
fn head(builds: &[Saved], image_bytes: usize) -> String {
    let mut text =
        format!("Whole checks of {} MiB in {} builds\n", image_bytes / MIB, builds.len());
    for Saved { name, build, .. } in builds {
        writeln!(text, "{name}: {build}").unwrap();
    }
    text
}

/// The joined tables; true where every limit is met by every build.
pub fn join(files: &[PathBuf], streams: &mut Streams) -> Result<bool, Fault> {
    let builds: Vec<Saved> = files.iter().map(|path| read(path)).collect::<Result<_, _>>()?;
    let image_bytes = builds[0].rows[0].image_bytes;
    let mut all = builds.iter().flat_map(|build| &build.rows);
    if all.any(|row| row.image_bytes != image_bytes) {
        return Err(Fault::input("the files are about images of different lengths".to_string()));
    }
    streams.write(&head(&builds, image_bytes))?;
    for row in 0..builds[0].rows.len() {
        let rows: Vec<&Row> = builds.iter().map(|build| &build.rows[row]).collect();
        streams.write(&table(&builds, &rows))?;
    }
    Ok(builds.iter().flat_map(|build| &build.rows).all(Row::met))
}
