//! bench-check: whole checks and rechecks by the proved library and by a straightforward Rust
//! checker, in one run.

use std::process::ExitCode;

use bench::check::{run, Programs, Streams};

fn main() -> ExitCode {
    let (mut tables, mut progress) = (std::io::stdout(), std::io::stderr());
    let mut streams = Streams { tables: &mut tables, progress: &mut progress };
    ExitCode::from(run(&Programs::COMPARED, std::env::args().skip(1), &mut streams))
}
