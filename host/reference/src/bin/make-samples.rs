//! Writes the sample files, the same in every run: make-samples DIRECTORY.

use std::path::Path;
use std::process::ExitCode;

fn write(directory: &Path) -> std::io::Result<()> {
    for (name, bytes) in reference::samples::files() {
        std::fs::write(directory.join(name), bytes)?;
    }
    Ok(())
}

fn main() -> ExitCode {
    let arguments: Vec<_> = std::env::args_os().skip(1).collect();
    let [directory] = arguments.as_slice() else {
        eprintln!("usage: make-samples DIRECTORY");
        return ExitCode::from(2);
    };
    match write(Path::new(directory)) {
        Ok(()) => ExitCode::SUCCESS,
        Err(error) => {
            eprintln!("make-samples: {}: {error}", directory.to_string_lossy());
            ExitCode::from(2)
        }
    }
}
