//! A difference between the two, with everything that the call was lent.

use std::fmt::Write;
use std::path::{Path, PathBuf};

/// The first difference of a run.
#[derive(Debug)]
pub struct Difference {
    pub seed: u64,
    pub case: u64,
    /// The call and what it was lent, byte for byte.
    pub call: String,
    pub input: String,
    pub library: String,
    pub reference: String,
}

impl Difference {
    /// Everything, as it is printed. The input may be long and goes to a file.
    pub fn text(&self) -> String {
        format!(
            "case {} of seed {} differs in {}\n  library:   {}\n  reference: {}\n",
            self.case, self.seed, self.call, self.library, self.reference
        )
    }

    /// Keeps the input in a file of its own.
    pub fn keep(&self, directory: &Path) -> std::io::Result<PathBuf> {
        let path = directory.join(format!("compare-{}-{}.txt", self.seed, self.case));
        std::fs::write(&path, self.text() + &self.input)?;
        Ok(path)
    }
}

/// One line of an input: a name and bytes in hexadecimal.
pub fn hex_line(out: &mut String, name: &str, bytes: &[u8]) {
    write!(out, "{name} ({} bytes): ", bytes.len()).unwrap();
    bytes.iter().for_each(|byte| write!(out, "{byte:02x}").unwrap());
    out.push('\n');
}

pub fn word_line(out: &mut String, name: &str, value: impl std::fmt::Debug) {
    writeln!(out, "{name}: {value:?}").unwrap();
}
