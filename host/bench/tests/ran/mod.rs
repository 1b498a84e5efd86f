//! Runs of bench-check in the test's own process.

use bench::check::{run, Programs, Streams};

/// Status, tables and progress.
pub fn in_process(programs: &Programs, list: &[&str]) -> (u8, String, String) {
    let (mut tables, mut progress) = (Vec::new(), Vec::new());
    let mut streams = Streams { tables: &mut tables, progress: &mut progress };
    let status = run(programs, list.iter().map(|name| name.to_string()), &mut streams);
    let text = |bytes| String::from_utf8(bytes).unwrap();
    (status, text(tables), text(progress))
}
