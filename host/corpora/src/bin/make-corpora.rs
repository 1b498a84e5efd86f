//! Writes the corpora and the output that the reference expects of the program that reads
//! them: make-corpora FOLDER, into FOLDER/data and FOLDER/stdout.

use std::fs;
use std::io;
use std::path::Path;
use std::process::ExitCode;

use corpora::subjects::{self, Made};

fn report(made: &Made) {
    let counts: Vec<String> =
        made.reached.iter().map(|(number, cases)| format!("{number} ({cases})")).collect();
    eprintln!("{}: {} cases, {} bytes", made.name, made.lines.len(), made.data.len());
    eprintln!("  numbers, and how often: {}", counts.join(" "));
}

fn write(folder: &Path, files: &[Made]) -> io::Result<()> {
    let data = folder.join("data");
    fs::create_dir_all(&data)?;
    files.iter().try_for_each(|made| fs::write(data.join(made.name), &made.data))?;
    let lines: Vec<&str> = files.iter().flat_map(|made| &made.lines).map(String::as_str).collect();
    fs::write(folder.join("stdout"), lines.concat())
}

fn run(folder: &Path) -> Result<(), String> {
    let files = subjects::make();
    files.iter().for_each(report);
    match files.iter().find_map(Made::fault) {
        Some(fault) => Err(fault + "; nothing was written"),
        None => write(folder, &files).map_err(|error| format!("{}: {error}", folder.display())),
    }
}

fn main() -> ExitCode {
    let arguments: Vec<_> = std::env::args_os().skip(1).collect();
    let [folder] = arguments.as_slice() else {
        eprintln!("usage: make-corpora FOLDER");
        return ExitCode::from(2);
    };
    match run(Path::new(folder)) {
        Ok(()) => ExitCode::SUCCESS,
        Err(message) => {
            eprintln!("make-corpora: {message}");
            ExitCode::FAILURE
        }
    }
}
