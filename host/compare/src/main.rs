//! compare: the proved library against the reference on many inputs.

mod arguments;

use std::collections::BTreeMap;
use std::fmt::Write;
use std::path::Path;
use std::process::ExitCode;
use std::time::{Duration, Instant};

use arguments::{Arguments, HELP};
use compare::{run, run_case, Counts, Difference};
use reference::answer::NUMBERS;

/// How often a long run says where it is.
const PAUSE: Duration = Duration::from_secs(5);

/// Tells standard error about a long run.
fn progress(cases: u64) -> impl FnMut(u64) {
    let mut told = Instant::now();
    move |case| {
        if told.elapsed() > PAUSE {
            told = Instant::now();
            eprintln!("compare: {case} of {cases} cases");
        }
    }
}

fn table(counts: &Counts) -> String {
    let mut out = String::from("number  checks  rechecks\n");
    for number in NUMBERS {
        let of = |counts: &BTreeMap<u32, u64>| counts.get(&number).copied().unwrap_or_default();
        let (checks, rechecks) = (of(&counts.checks), of(&counts.rechecks));
        writeln!(out, "{number:6}  {checks:6}  {rechecks:8}").unwrap();
    }
    out
}

/// How many cases there were of each hash kind.
fn kinds(counts: &Counts) -> String {
    let of = |(kind, cases): (&u8, &u64)| format!("{cases} of kind {kind}");
    format!("cases: {}", counts.kinds.iter().map(of).collect::<Vec<_>>().join(", "))
}

fn differs(difference: &Difference) -> String {
    let kept = match difference.keep(Path::new(".")) {
        Ok(path) => format!("the input is kept in {}", path.display()),
        Err(error) => format!("the input cannot be kept: {error}"),
    };
    let again = format!("again: compare --seed {} --case {}", difference.seed, difference.case);
    format!("{}{kept}\n{again}", difference.text())
}

fn compare(arguments: &Arguments) -> Result<(), String> {
    let start = Instant::now();
    let counts = match arguments.only {
        Some(case) => run_case(arguments.seed, case),
        None => run(arguments.seed, arguments.cases, progress(arguments.cases)),
    };
    let counts = counts.map_err(|difference| differs(&difference))?;
    print!("{}", table(&counts));
    println!("{}", kinds(&counts));
    let cases = arguments.only.map_or(arguments.cases, |_| 1);
    println!(
        "{cases} cases of seed {}, {} calls of each: all agree ({:.1} s)",
        arguments.seed,
        counts.calls,
        start.elapsed().as_secs_f64()
    );
    if arguments.only.is_some() {
        return Ok(());
    }
    reached(&counts)
}

/// Every number was answered, and every hash kind was there.
fn reached(counts: &Counts) -> Result<(), String> {
    let (numbers, kinds) = (counts.missing(), counts.missing_kinds());
    if !numbers.is_empty() {
        return Err(format!("no call answered {numbers:?}"));
    }
    if !kinds.is_empty() {
        return Err(format!("no case was of kind {kinds:?}"));
    }
    Ok(())
}

fn main() -> ExitCode {
    let (message, status) = match arguments::read(std::env::args().skip(1)) {
        Ok(Some(arguments)) => match compare(&arguments) {
            Ok(()) => return ExitCode::SUCCESS,
            Err(message) => (message, 1),
        },
        Ok(None) => {
            print!("{HELP}");
            return ExitCode::SUCCESS;
        }
        Err(message) => (format!("{message}; see --help"), 2),
    };
    eprintln!("compare: {message}");
    ExitCode::from(status)
}
