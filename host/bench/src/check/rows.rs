//! The whole checks that have a limit.

use super::fault::Fault;
use super::measure::{Measured, Pair};
use super::number::{grouped, MIB};
use super::run::Run;
use super::scene::{Scene, LARGE, SMALL};
use super::table::{pair, MILLISECONDS, PAIR_HEAD};
use crate::plain::Kind;

/// The library may take this many times as long as the straightforward checker.
pub const LIMIT: f64 = 1.5;

/// Hash kind and pageSize of each row.
pub const ASKED: [(Kind, u8); 4] =
    [(Kind::Sha256, SMALL), (Kind::Sha256, LARGE), (Kind::Sha384, SMALL), (Kind::Sha384, LARGE)];

#[derive(Clone, Copy, Debug, PartialEq)]
pub struct Row {
    pub kind: Kind,
    pub page_bytes: usize,
    pub image_bytes: usize,
    pub measured: Measured,
}

fn met(ratio: f64) -> bool {
    ratio <= LIMIT
}

/// Against the limit.
pub fn verdict(ratio: f64) -> &'static str {
    if met(ratio) {
        "met"
    } else {
        "not met"
    }
}

/// A row in words.
fn whole_check(kind: Kind, page_bytes: usize) -> String {
    format!("whole check, pages of {} bytes, {}", grouped(page_bytes), kind.name())
}

impl Row {
    /// The higher of the ratios by minimum and by median: the limit is on both.
    pub fn ratio(&self) -> f64 {
        self.measured.minimum.ratio().max(self.measured.median.ratio())
    }

    pub fn met(&self) -> bool {
        met(self.ratio())
    }

    /// 10^6 bytes a second by minimum: the library's, and Rust's.
    pub fn speeds(&self) -> [f64; 2] {
        let Pair { library, plain } = self.measured.minimum;
        [library, plain].map(|seconds| self.image_bytes as f64 / seconds / 1e6)
    }

    pub fn what(&self) -> String {
        whole_check(self.kind, self.page_bytes)
    }
}

pub fn measure(run: &mut Run, image: &[u8]) -> Result<Vec<Row>, Fault> {
    let asked = ASKED.into_iter().map(|(kind, shift)| {
        let scene = Scene::new(kind, image, shift);
        let page_bytes = scene.page_size;
        let measured = run.whole(whole_check(kind, page_bytes), &scene, image)?.measured;
        Ok(Row { kind, page_bytes, image_bytes: image.len(), measured })
    });
    asked.collect()
}

/// Two lines above the rows.
fn head() -> String {
    let width = PAIR_HEAD.len();
    let (minimum, median, speeds) = ("minimum", "median", "MB/s");
    let above = format!("{:16}  {minimum:^width$}  {median:^width$}  {speeds:^17}", "");
    let (pages, hash) = ("pages", "hash");
    let below = format!("{pages:>6}  {hash:8}  {PAIR_HEAD}  {PAIR_HEAD}    library    Rust  limit");
    format!("{}\n{below}\n", above.trim_end())
}

fn line(row: &Row) -> String {
    let (pages, hash) = (grouped(row.page_bytes), row.kind.name());
    let Measured { minimum, median, .. } = row.measured;
    let [minimum, median] = [minimum, median].map(|times| pair(MILLISECONDS, times));
    let ([library, plain], verdict) = (row.speeds(), verdict(row.ratio()));
    let speeds = format!("{library:9.1} {plain:7.1}");
    format!("{pages:>6}  {hash:8}  {minimum}  {median}  {speeds}  {LIMIT:5}  {verdict}\n")
}

pub fn table(rows: &[Row]) -> String {
    let mib = rows[0].image_bytes / MIB;
    let title = "ms a call, MB/s by minimum (10^6 bytes a second)";
    let lines: String = rows.iter().map(line).collect();
    format!("\nWhole checks of {mib} MiB; {title}\n{}{lines}", head())
}
