//! Reads the lines that go with the corpora.

use std::sync::OnceLock;

use corpora::subjects::{self, Made};

/// The lines of a subject, which are made once for all tests of a program.
pub fn lines_of(subject: &str) -> &'static [String] {
    static FILES: OnceLock<Vec<Made>> = OnceLock::new();
    let files = FILES.get_or_init(subjects::make);
    &files.iter().find(|made| made.name == subject).expect(subject).lines
}

/// The number and place that the line of a case gives.
pub fn answered(lines: &[String], name: &str) -> String {
    let line = lines.iter().find_map(|line| line.strip_prefix(&format!("{name}: ")));
    line.expect(name).split_whitespace().take(2).collect::<Vec<_>>().join(" ")
}
