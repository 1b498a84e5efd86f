//! The arguments of compare.

pub const HELP: &str = "\
usage: compare [--cases N] [--seed N] [--case N]

Lends random and damaged inputs to the proved library and to the independent reference, and
compares answers, marks, lookups, fields, hashes and chains of rechecks.

  --cases N   how many cases (default 10000)
  --seed N    the seed; case n of a seed is the same in every run (default 1)
  --case N    run case N of the seed alone, and do not ask for every number and kind

Prints how often each number was answered, and how many cases there were of each hash
kind. Exit status 0 where all agree, every number of the table was answered and every
hash kind was there, 1 where not, 2 usage error. The first difference is printed, and its
input kept in a file in the current directory.
";

pub struct Arguments {
    pub cases: u64,
    pub seed: u64,
    pub only: Option<u64>,
}

fn number(name: &str, value: Option<String>) -> Result<u64, String> {
    let value = value.ok_or(format!("{name} wants a number"))?;
    value.parse().map_err(|_| format!("{name} wants a number, not {value:?}"))
}

/// The arguments; none where help is asked for.
pub fn read(mut list: impl Iterator<Item = String>) -> Result<Option<Arguments>, String> {
    let mut arguments = Arguments { cases: 10_000, seed: 1, only: None };
    while let Some(name) = list.next() {
        match name.as_str() {
            "--cases" => arguments.cases = number(&name, list.next())?,
            "--seed" => arguments.seed = number(&name, list.next())?,
            "--case" => arguments.only = Some(number(&name, list.next())?),
            "--help" | "-h" => return Ok(None),
            _ => return Err(format!("no option {name:?}")),
        }
    }
    Ok(Some(arguments))
}
