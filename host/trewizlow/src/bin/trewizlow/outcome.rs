//! What a command comes to: text for standard output, notes and
//! warnings for standard error, a status.

use std::io::{self, ErrorKind, Write};
use std::process::ExitCode;

use crate::json;

const REFUSED: u8 = 1;
pub const FAILED: u8 = 2;

pub struct Outcome {
    pub text: String,
    /// The library said 0, or was not asked.
    pub passed: bool,
    /// Remarks that change nothing.
    pub notes: Vec<String>,
    /// What the answer does not say, and whoever reads it should know.
    pub warnings: Vec<String>,
    /// A usage or input error.
    pub failure: Option<String>,
}

/// Standard error may be closed; there is nobody to tell then.
fn tell(line: &str) {
    let _ = writeln!(io::stderr(), "trewizlow: {}", line.trim_end());
}

/// A reader that closed the pipe has what it wants: that is no error.
fn print(text: &str) -> Result<(), String> {
    let mut out = io::stdout().lock();
    match out.write_all(text.as_bytes()).and_then(|()| out.flush()) {
        Err(error) if error.kind() != ErrorKind::BrokenPipe => {
            Err(format!("cannot write to standard output: {error}"))
        }
        _ => Ok(()),
    }
}

impl Outcome {
    pub fn text(text: String) -> Outcome {
        Outcome { text, passed: true, notes: Vec::new(), warnings: Vec::new(), failure: None }
    }

    /// Nothing was answered. In JSON the sentence stands on standard output too.
    pub fn failed(sentence: String, json: bool) -> Outcome {
        let object = || json::object(&[json::error(&sentence)]) + "\n";
        let text = if json { object() } else { String::new() };
        Outcome { failure: Some(sentence), ..Outcome::text(text) }
    }

    /// Prints everything and gives the exit status.
    pub fn report(self) -> ExitCode {
        let printed = print(&self.text);
        self.notes.iter().for_each(|note| tell(&format!("note: {note}")));
        self.warnings.iter().for_each(|warning| tell(&format!("warning: {warning}")));
        if let Some(failure) = self.failure.or(printed.err()) {
            tell(&failure);
            return ExitCode::from(FAILED);
        }
        if self.passed {
            ExitCode::SUCCESS
        } else {
            ExitCode::from(REFUSED)
        }
    }
}
