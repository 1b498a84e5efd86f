//! Tables of times.

use std::fmt::Write;

use super::measure::Pair;
use super::run::Timed;

/// What a table gives times in.
#[derive(Clone, Copy)]
pub struct Unit {
    pub name: &'static str,
    pub in_a_second: f64,
    decimals: usize,
}

pub const MILLISECONDS: Unit = Unit { name: "ms", in_a_second: 1e3, decimals: 3 };
pub const MICROSECONDS: Unit = Unit { name: "µs", in_a_second: 1e6, decimals: 1 };

/// The column of what is timed.
const WHAT: usize = 60;

/// The head of the columns of `pair`.
pub const PAIR_HEAD: &str = "     library         Rust   ratio";

/// Both times and their ratio.
pub fn pair(unit: Unit, pair: Pair) -> String {
    let [library, plain] = [pair.library, pair.plain].map(|seconds| seconds * unit.in_a_second);
    let (decimals, ratio) = (unit.decimals, pair.ratio());
    format!("{library:12.decimals$} {plain:12.decimals$}  {ratio:6.3}")
}

/// A title, and a line for each call.
pub fn times(title: &str, unit: Unit, calls: &[Timed]) -> String {
    let mut text = format!("\n{title}; {} a call\n", unit.name);
    let width = PAIR_HEAD.len();
    let above = format!("{:WHAT$}  {:^width$}  {:^width$}", "", "minimum", "median");
    writeln!(text, "{}", above.trim_end()).unwrap();
    writeln!(text, "{:WHAT$}  {PAIR_HEAD}  {PAIR_HEAD}  samples", "").unwrap();
    for Timed { what, measured } in calls {
        let (minimum, median) = (pair(unit, measured.minimum), pair(unit, measured.median));
        let samples = measured.samples;
        writeln!(text, "{what:WHAT$}  {minimum}  {median}  {samples:7}").unwrap();
    }
    text
}
