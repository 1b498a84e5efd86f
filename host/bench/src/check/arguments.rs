//! The arguments of bench-check.

use std::path::PathBuf;

use super::number::MIB;
use super::rows::LIMIT;
use crate::arguments::{is_help, number, unknown, value, Arguments};

pub const USAGE: &str = "\
usage: bench-check [--part rows|calls|growth].. [--mib N] [--reps N] [--short-reps N]
                   [--most-mib N] [--save FILE] [--plot FILE]
       bench-check --builds FILE..
";

/// What codeLimit, a number of 32 bits, can say in whole MiB.
const MOST_MIB: usize = u32::MAX as usize / MIB;

const DEFAULT: Measuring = Measuring {
    size: Arguments { mib: 200, reps: 9 },
    short_reps: 200,
    most_mib: 1024,
    parts: Parts { rows: true, calls: true, growth: true },
    save: None,
    plot: None,
};

#[derive(Clone, Copy, Default, PartialEq)]
pub struct Parts {
    pub rows: bool,
    pub calls: bool,
    pub growth: bool,
}

/// What a run measures, and what it writes beside the tables.
pub struct Measuring {
    pub size: Arguments,
    /// Samples of calls that are short.
    pub short_reps: usize,
    /// The largest image of the growth part.
    pub most_mib: usize,
    pub parts: Parts,
    pub save: Option<PathBuf>,
    pub plot: Option<PathBuf>,
}

pub enum Task {
    Help,
    Measure(Measuring),
    /// Joins what runs of several builds have saved.
    Builds(Vec<PathBuf>),
}

pub fn help() -> String {
    let Measuring { size: Arguments { mib, reps }, short_reps, most_mib, .. } = DEFAULT;
    format!(
        "{USAGE}
Times the proved library and a straightforward Rust checker in one run, compares answer and
marks of every sample, and prints both times and their ratio.

  --part P        rows: the whole checks that have a limit, {LIMIT} times as long as Rust: pages
                  of 4,096 and 16,384 bytes by SHA-256 and SHA-384. calls: other whole checks,
                  rechecks, the lookup, the sample, a page that differs, calls at the limits.
                  growth: time against image, pages met and cache entries. Repeatable; all
                  three where none is named
  --mib N         the image in MiB (default {mib}, at most {MOST_MIB})
  --reps N        samples of calls that are not short (default {reps})
  --short-reps N  samples of short calls, which are repeated in a sample (default {short_reps})
  --most-mib N    the largest image of growth (default {most_mib}, at most {MOST_MIB})
  --save FILE     writes the rows with the build's flags
  --plot FILE     draws growth as SVG
  --builds FILE.. joins what runs of several builds have saved: each ratio, the range, and the
                  least favourable against the limit

Exit status 0; 1 where an answer or a mark differs or the executable has a hash instruction;
2 for a usage error or a file that cannot be read or written; 3 where all agree and a limit
is not met.
"
    )
}

impl Parts {
    fn add(&mut self, name: &str) -> Result<(), String> {
        match name {
            "rows" => self.rows = true,
            "calls" => self.calls = true,
            "growth" => self.growth = true,
            _ => return Err(format!("no part {name}")),
        }
        Ok(())
    }
}

impl Measuring {
    fn take(
        &mut self,
        name: &str,
        rest: &mut dyn Iterator<Item = String>,
        parts: &mut Parts,
    ) -> Result<(), String> {
        match name {
            "--part" => parts.add(&value(name, rest.next())?)?,
            "--short-reps" => self.short_reps = number(name, rest.next())?,
            "--most-mib" => self.most_mib = number(name, rest.next())?,
            "--save" => self.save = Some(value(name, rest.next())?.into()),
            "--plot" => self.plot = Some(value(name, rest.next())?.into()),
            _ if self.size.take(name, rest)? => {}
            _ => return unknown(name),
        }
        Ok(())
    }

    /// What one argument alone cannot show.
    fn tested(self) -> Result<Measuring, String> {
        if self.size.mib.max(self.most_mib) > MOST_MIB {
            return Err(format!("an image has at most {MOST_MIB} MiB"));
        }
        if self.save.is_some() && !self.parts.rows {
            return Err("--save goes with the part rows".to_string());
        }
        if self.plot.is_some() && !self.parts.growth {
            return Err("--plot goes with the part growth".to_string());
        }
        Ok(self)
    }
}

fn builds(files: Vec<PathBuf>) -> Result<Task, String> {
    if files.is_empty() {
        return Err("--builds wants files".to_string());
    }
    Ok(Task::Builds(files))
}

pub fn read(list: impl Iterator<Item = String>) -> Result<Task, String> {
    let mut list = list.peekable();
    if list.next_if_eq("--builds").is_some() {
        return builds(list.map(PathBuf::from).collect());
    }
    let (mut measuring, mut parts) = (DEFAULT, Parts::default());
    while let Some(name) = list.next() {
        if is_help(&name) {
            return Ok(Task::Help);
        }
        measuring.take(&name, &mut list, &mut parts)?;
    }
    if parts != Parts::default() {
        measuring.parts = parts;
    }
    measuring.tested().map(Task::Measure)
}
