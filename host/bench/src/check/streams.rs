//! Where a run writes.

use std::io::Write;

use super::fault::Fault;

pub struct Streams<'a> {
    /// Tables, and what they stand under.
    pub tables: &'a mut dyn Write,
    /// What is being measured, and what ends a run.
    pub progress: &'a mut dyn Write,
}

impl Streams<'_> {
    pub fn write(&mut self, text: &str) -> Result<(), Fault> {
        let written = self.tables.write_all(text.as_bytes()).and_then(|()| self.tables.flush());
        written.map_err(|error| Fault::input(format!("the tables cannot be written: {error}")))
    }

    pub fn say(&mut self, text: &str) {
        // There is nowhere to tell of a standard error that cannot be written.
        let _ = writeln!(self.progress, "bench-check: {text}");
    }
}
